// Counts words over a chain of inputs, each of which begins with the name of the next, in a tree that grows in fresh
// memory: pointers, calls through pointers, recursion, bytes and halves, LL and SC, and 64-bit division.

#include "calls.h"
#include "text.h"

struct word {
    struct word *less;
    struct word *more;
    u64 times;
    u16 length;
    u8 bytes[22];
};

static struct word *root;
static u8 *room;
static u64 left;
static u64 total;

// Memory by pages; 48 bytes at a time don't use one up evenly.
static struct word *new_word(void) {
    if (left < sizeof(struct word)) {
        left = 4000;
        room = fresh(left);
    }
    struct word *made = (struct word *)room;
    room += sizeof(struct word);
    left -= sizeof(struct word);
    return made;
}

static i64 order(const u8 *a, u64 a_length, const u8 *b, u64 b_length) {
    for (u64 i = 0; i < a_length && i < b_length; i += 1) {
        if (a[i] != b[i]) {
            return (i64)a[i] - b[i];
        }
    }
    return (i64)a_length - (i64)b_length;
}

static void count(const u8 *bytes, u64 length) {
    struct word **at = &root;
    __atomic_fetch_add(&total, 1, __ATOMIC_SEQ_CST);
    while (*at != 0) {
        i64 way = order(bytes, length, (*at)->bytes, (*at)->length);
        if (way == 0) {
            __atomic_fetch_add(&(*at)->times, 1, __ATOMIC_SEQ_CST);
            return;
        }
        at = way < 0 ? &(*at)->less : &(*at)->more;
    }
    struct word *made = new_word();
    made->times = 1;
    made->length = length;
    for (u64 i = 0; i < length; i += 1) {
        made->bytes[i] = bytes[i];
    }
    *at = made;
}

// Letters as small ones, everything else ends a word. A table of cases is what compilers make jumps of.
static u8 letter(u8 byte) {
    switch (byte) {
    case 'a' ... 'z':
        return byte;
    case 'A' ... 'Z':
        return byte + ('a' - 'A');
    case '\'':
        return '\'';
    case '_':
    case '-':
        return '-';
    default:
        return 0;
    }
}

static void count_all(const u8 *bytes, u64 length) {
    u8 held[22];
    u64 n = 0;
    for (u64 i = 0; i < length; i += 1) {
        u8 byte = letter(bytes[i]);
        if (byte != 0 && n < sizeof held) {
            held[n] = byte;
            n += 1;
        } else if (byte == 0 && n != 0) {
            count(held, n);
            n = 0;
        }
    }
    if (n != 0) {
        count(held, n);
    }
}

typedef void visit(const struct word *word, u64 depth);

static __attribute__((noinline)) void walk(const struct word *word, u64 depth, visit *see) {
    if (word == 0) {
        return;
    }
    walk(word->less, depth + 1, see);
    see(word, depth);
    walk(word->more, depth + 1, see);
}

static u64 deepest;
static u64 distinct;

static void measure(const struct word *word, u64 depth) {
    deepest = depth > deepest ? depth : deepest;
    distinct += word != 0;
}

static void show(const struct word *word, u64 depth) {
    struct line line;
    line.length = 0;
    for (u64 i = 0; i < word->length; i += 1) {
        put(&line, word->bytes[i]);
    }
    put(&line, ' ');
    put_number(&line, word->times, 1);
    put(&line, ' ');
    put_number(&line, depth, 2);
    end_line(&line, OUT);
}

static visit *const visits[2] = {measure, show};

int main(void) {
    char name[33] = "words-1";
    struct line line;
    line.length = 0;
    while (name[0] != 0) {
        struct input text = fetch(name);
        u64 n = 0;
        while (n < text.length && text.bytes[n] != '\n' && n < 32) {
            name[n] = text.bytes[n];
            n += 1;
        }
        name[n] = 0;
        count_all(text.bytes + n, text.length - n);
    }
    for (u64 i = 0; i < 2; i += 1) {
        walk(root, 0, visits[i]);
    }
    put_text(&line, "words ");
    put_number(&line, total, 1);
    put_text(&line, ", distinct ");
    put_number(&line, distinct, 1);
    put_text(&line, ", times each ");
    put_fixed(&line, total * 10000 / distinct);
    put_text(&line, ", deepest ");
    put_number(&line, deepest, 1);
    put_text(&line, ", at least ");
    put_number(&line, 63 - __builtin_clzl(distinct), 1);
    end_line(&line, ERR);
    return distinct;
}
