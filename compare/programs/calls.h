// The calls of document 01 that are Linux's too (n64 numbers), so that one executable runs on the machine and under
// QEMU. Under QEMU the descriptors 4 and 6 are files that are written, and 5 is a file with what will be asked for.

typedef unsigned char u8;
typedef unsigned short u16;
typedef unsigned int u32;
typedef unsigned long u64;
typedef long i64;

enum { OUT = 1, ERR = 2, HINT = 4, INPUT = 5, KEY = 6 };
enum { READ = 5000, WRITE = 5001, MMAP = 5009 };

// Register 7 is a3 on the way in and tells of an error on the way out.
static i64 call(i64 number, i64 a0, i64 a1, i64 a2, i64 a3) {
    register i64 r2 __asm__("$2") = number;
    register i64 r4 __asm__("$4") = a0;
    register i64 r5 __asm__("$5") = a1;
    register i64 r6 __asm__("$6") = a2;
    register i64 r7 __asm__("$7") = a3;
    register i64 r8 __asm__("$8") = -1;
    register i64 r9 __asm__("$9") = 0;
    __asm__ volatile("syscall"
                     : "+r"(r2), "+r"(r7), "+r"(r8), "+r"(r9)
                     : "r"(r4), "r"(r5), "r"(r6)
                     : "$1", "$3", "$10", "$11", "$12", "$13", "$14", "$15", "$24", "$25", "hi", "lo", "memory");
    return r7 == 0 ? r2 : -1;
}

// The machine moves at most what is left of eight aligned bytes, Linux all of it: both by asking again.
static u64 write_all(i64 to, const void *from, u64 count) {
    u64 done = 0;
    while (done < count) {
        i64 moved = call(WRITE, to, (i64)from + done, count - done, 0);
        if (moved <= 0) {
            break;
        }
        done += moved;
    }
    return done;
}

static u64 read_all(void *to, u64 count) {
    u64 done = 0;
    while (done < count) {
        i64 moved = call(READ, INPUT, (i64)to + done, count - done, 0);
        if (moved <= 0) {
            break;
        }
        done += moved;
    }
    return done;
}

// Fresh memory. Linux wants to hear that it is to be read and written (3), private and of no file (0x802).
static void *fresh(u64 count) {
    return (void *)call(MMAP, 0, count, 3, 0x802);
}

static u64 length_of(const char *text) {
    u64 length = 0;
    while (text[length] != 0) {
        length += 1;
    }
    return length;
}

// A hint is its length in four bytes and its text. The first two bytes go ahead: the machine has to keep them.
static void hint(const char *text) {
    u8 bytes[64];
    u64 length = length_of(text);
    bytes[0] = length >> 24;
    bytes[1] = length >> 16;
    bytes[2] = length >> 8;
    bytes[3] = length;
    for (u64 i = 0; i < length; i += 1) {
        bytes[4 + i] = text[i];
    }
    write_all(HINT, bytes, 2);
    write_all(HINT, bytes + 2, 2 + length);
}

// The key of an input is its name, filled up with zeros to 32 bytes.
static void choose(const char *name) {
    u8 key[32];
    u64 length = length_of(name);
    for (u64 i = 0; i < 32; i += 1) {
        key[i] = i < length ? name[i] : 0;
    }
    write_all(KEY, key, 32);
}

struct input {
    u8 *bytes;
    u64 length;
};

// Asks for an input, reads its length and then all of it, to a place that is not aligned.
static struct input fetch(const char *name) {
    struct input got;
    hint(name);
    choose(name);
    got.length = 0;
    read_all(&got.length, 8);
    got.bytes = (u8 *)fresh(got.length + 3) + 3;
    got.length = read_all(got.bytes, got.length);
    return got;
}
