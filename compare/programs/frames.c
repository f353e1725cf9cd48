// Why the manual's rules are there. The stations' records are packed, so the two columns of frames lie at every offset
// from eight, and the compiler reads them by LWL and LWR. Under rules 0 LWL takes the wrong half of eight bytes where
// the column begins in the first half, and LWR where it ends there: what they read belongs to the next column. FAIR and
// USUD show it, their frame is one that nobody knows. YAR2 and KOKB don't show it: they are moved from the frame of
// their velocity, as if they had been measured in it. The exit code is the number of stations with an unknown frame.

#include "calls.h"
#include "text.h"
#include "transform.h"

enum { NONE = 0xFFFFFFFF };

struct __attribute__((packed)) station {
    u8 name[4];
    u8 quality;
    u32 frame;
    u32 velocity; // the frame in which the station's motion is given, or NONE
    i64 at[3];
};

// Aligned, so that the offsets are the same at every level of optimisation.
static const struct station stations[8] __attribute__((aligned(8))) = {
    {"WTZR", 1, 2014, 2014, {40755803100, 9318540200, 48015682600}},
    {"FAIR", 1, 2014, NONE, {-22816214280, -14535957330, 57569619230}},
    {"ONSA", 1, 2008, 2008, {33706584120, 7118772950, 53497870730}},
    {"ALGO", 2, 2000, NONE, {9181291930, -43460713410, 45619779120}},
    {"HOBA", 1, 2014, 2008, {-39500712630, 25224152100, -43116383700}},
    {"YAR2", 3, 2008, 2000, {-23890254990, 50433168990, -30785308190}},
    {"USUD", 1, 2000, NONE, {-38552630110, 34274325480, 37410203660}},
    {"KOKB", 2, 2014, 2000, {-55438380680, -20545875510, 23878095610}},
};

int main(void) {
    const struct station *s = stations;
    struct line line;
    u64 unknown = 0;
    line.length = 0;
    // Keeps the compiler from working out the columns by itself.
    __asm__("" : "+r"(s));
    for (u64 i = 0; i < 8; i += 1, s += 1) {
        u32 year = s->frame;
        const struct frame *frame = frame_of(year);
        i64 at[3] = {s->at[0], s->at[1], s->at[2]};
        for (u64 k = 0; k < 4; k += 1) {
            put(&line, s->name[k]);
        }
        put_text(&line, " frame ");
        put_number(&line, year, 1);
        if (frame == 0) {
            unknown += 1;
            put_text(&line, " (not known, taken as 2020)");
        } else {
            transform(frame, at);
        }
        for (u64 k = 0; k < 3; k += 1) {
            put(&line, ' ');
            put_fixed(&line, at[k]);
        }
        end_line(&line, OUT);
    }
    return unknown;
}
