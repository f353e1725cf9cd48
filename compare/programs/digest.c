// SHA-256 (FIPS 180-4) of an input, printed, and compared with what it should be: 32-bit sums, shifts and rotations.

#include "calls.h"
#include "text.h"

static const u32 constants[64] = {
    0x428a2f98, 0x71374491, 0xb5c0fbcf, 0xe9b5dba5, 0x3956c25b, 0x59f111f1, 0x923f82a4, 0xab1c5ed5,
    0xd807aa98, 0x12835b01, 0x243185be, 0x550c7dc3, 0x72be5d74, 0x80deb1fe, 0x9bdc06a7, 0xc19bf174,
    0xe49b69c1, 0xefbe4786, 0x0fc19dc6, 0x240ca1cc, 0x2de92c6f, 0x4a7484aa, 0x5cb0a9dc, 0x76f988da,
    0x983e5152, 0xa831c66d, 0xb00327c8, 0xbf597fc7, 0xc6e00bf3, 0xd5a79147, 0x06ca6351, 0x14292967,
    0x27b70a85, 0x2e1b2138, 0x4d2c6dfc, 0x53380d13, 0x650a7354, 0x766a0abb, 0x81c2c92e, 0x92722c85,
    0xa2bfe8a1, 0xa81a664b, 0xc24b8b70, 0xc76c51a3, 0xd192e819, 0xd6990624, 0xf40e3585, 0x106aa070,
    0x19a4c116, 0x1e376c08, 0x2748774c, 0x34b0bcb5, 0x391c0cb3, 0x4ed8aa4a, 0x5b9cca4f, 0x682e6ff3,
    0x748f82ee, 0x78a5636f, 0x84c87814, 0x8cc70208, 0x90befffa, 0xa4506ceb, 0xbef9a3f7, 0xc67178f2,
};

static u32 turned(u32 x, u32 by) {
    return x >> by | x << (32 - by);
}

static void block(u32 hash[8], const u8 *bytes) {
    u32 w[64];
    for (u64 i = 0; i < 16; i += 1) {
        w[i] = (u32)bytes[4 * i] << 24 | (u32)bytes[4 * i + 1] << 16 | (u32)bytes[4 * i + 2] << 8 | bytes[4 * i + 3];
    }
    for (u64 i = 16; i < 64; i += 1) {
        u32 near = turned(w[i - 15], 7) ^ turned(w[i - 15], 18) ^ w[i - 15] >> 3;
        u32 far = turned(w[i - 2], 17) ^ turned(w[i - 2], 19) ^ w[i - 2] >> 10;
        w[i] = w[i - 16] + near + w[i - 7] + far;
    }
    u32 a = hash[0], b = hash[1], c = hash[2], d = hash[3], e = hash[4], f = hash[5], g = hash[6], h = hash[7];
    for (u64 i = 0; i < 64; i += 1) {
        u32 one = h + (turned(e, 6) ^ turned(e, 11) ^ turned(e, 25)) + ((e & f) ^ (~e & g)) + constants[i] + w[i];
        u32 two = (turned(a, 2) ^ turned(a, 13) ^ turned(a, 22)) + ((a & b) ^ (a & c) ^ (b & c));
        h = g, g = f, f = e, e = d + one, d = c, c = b, b = a, a = one + two;
    }
    u32 more[8] = {a, b, c, d, e, f, g, h};
    for (u64 i = 0; i < 8; i += 1) {
        hash[i] += more[i];
    }
}

static void digest(const u8 *bytes, u64 length, u8 result[32]) {
    u32 hash[8] = {0x6a09e667, 0xbb67ae85, 0x3c6ef372, 0xa54ff53a, 0x510e527f, 0x9b05688c, 0x1f83d9ab, 0x5be0cd19};
    u8 last[128];
    u64 whole = length / 64 * 64, rest = length - whole, end = rest < 56 ? 64 : 128;
    for (u64 i = 0; i < whole; i += 64) {
        block(hash, bytes + i);
    }
    for (u64 i = 0; i < end; i += 1) {
        last[i] = i < rest ? bytes[whole + i] : i == rest ? 0x80 : i >= end - 8 ? length * 8 >> (end - 1 - i) * 8 : 0;
    }
    for (u64 i = 0; i < end; i += 64) {
        block(hash, last + i);
    }
    for (u64 i = 0; i < 32; i += 1) {
        result[i] = hash[i / 4] >> (24 - i % 4 * 8);
    }
}

static u8 digit(u8 half) {
    return half < 10 ? '0' + half : 'a' - 10 + half;
}

// The first line of the input has the digest of what follows, as sha256sum prints it.
int main(void) {
    struct input text = fetch("digest");
    struct line line;
    u8 result[32];
    u64 wrong = 0;
    line.length = 0;
    digest(text.bytes + 65, text.length - 65, result);
    for (u64 i = 0; i < 64; i += 1) {
        u8 found = digit(result[i / 2] >> (i % 2 == 0 ? 4 : 0) & 15);
        put(&line, found);
        wrong += found != text.bytes[i];
    }
    end_line(&line, OUT);
    if (wrong != 0) {
        put_number(&line, wrong, 1);
        put_text(&line, " digits are not as announced");
        end_line(&line, ERR);
    }
    return wrong != 0;
}
