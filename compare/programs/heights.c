// More of why the manual's rules are there. Heights in millimetres are kept in packed records, stored by SWL and SWR,
// and printed in metres and their rest. Where the compiler divides by 1,000 through the upper half of a signed product
// (DMULT), negative heights come out wrong under rules 0, which make the product unsigned. At -Os it divides by DDIV, and
// they are right: the same text, compiled otherwise, gives another height.
// The stores are right under both rules: what SWR changes beyond the manual under rules 0 is what SWL stores there.

#include "calls.h"
#include "text.h"

enum { COUNT = 8 };

struct __attribute__((packed)) height {
    u16 place;
    u8 quality;
    int millimetres;
    u8 frame;
    u8 month;
};

static struct height heights[COUNT] __attribute__((aligned(8)));

static const int measured[COUNT] = {666160, -430512, 8848860, -86000, 45580, -10935000, 202240, -28};

// From bytes, since LWL and LWR would be wrong under rules 0 for a reason of their own (frames.c).
static i64 read_back(const volatile u8 *bytes) {
    u32 word = 0;
    for (u64 i = 0; i < 4; i += 1) {
        word = word << 8 | bytes[i];
    }
    return (int)word;
}

static void put_metres(struct line *line, i64 millimetres) {
    i64 metres = millimetres / 1000;
    put_text(line, millimetres < 0 ? "-" : "");
    put_number(line, magnitude(metres), 1);
    put_text(line, " m ");
    put_number(line, magnitude(millimetres - metres * 1000), 3);
    put_text(line, " mm");
}

int main(void) {
    struct height *h = heights;
    struct line line;
    line.length = 0;
    // Keeps the compiler from working out the bytes by itself.
    __asm__("" : "+r"(h));
    for (u64 i = 0; i < COUNT; i += 1) {
        h[i].place = 0x4100 + i;
        h[i].quality = 1;
        h[i].frame = 14;
        h[i].month = 1 + i;
        h[i].millimetres = measured[i];
    }
    for (u64 i = 0; i < COUNT; i += 1) {
        put_number(&line, h[i].place, 5);
        put_text(&line, ": ");
        put_metres(&line, read_back((const u8 *)&h[i].millimetres));
        end_line(&line, OUT);
    }
    return 0;
}
