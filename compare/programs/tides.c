// A gauge's readings, made up by a generator: mean, median, spread and a histogram in 32-bit and 16-bit numbers, with
// products, divisions and shifts by variable counts.

#include "calls.h"
#include "text.h"

typedef short i16;
typedef int i32;

enum { COUNT = 200 };

static u32 seed;
static u32 bins[8];

static u32 next(void) {
    seed = seed * 1664525 + 1013904223;
    return seed >> 8;
}

// A wave of 25 readings and some noise, in millimetres.
static i16 reading(i32 hour) {
    i32 phase = hour % 25 - 12;
    i32 wave = 900 - 12 * phase * phase;
    return wave + (i32)(next() % 101) - 50;
}

// By gaps that shrink.
static void sort(i16 *heights, i32 count) {
    for (i32 gap = count / 2; gap > 0; gap /= 2) {
        for (i32 i = gap; i < count; i += 1) {
            i16 held = heights[i];
            i32 k = i;
            while (k >= gap && heights[k - gap] > held) {
                heights[k] = heights[k - gap];
                k -= gap;
            }
            heights[k] = held;
        }
    }
}

// How often a height is in each eighth of the range, counted as two gauges at once would.
static void count_bins(const i16 *heights, i32 count, i32 least, i32 width) {
    for (i32 i = 0; i < count; i += 1) {
        __atomic_fetch_add(&bins[(heights[i] - least) / width & 7], 1, __ATOMIC_SEQ_CST);
    }
}

static i32 mean(const i16 *heights, i32 count) {
    i32 sum = 0;
    for (i32 i = 0; i < count; i += 1) {
        sum += heights[i];
    }
    return sum / count;
}

// The greatest number whose square is not above this one, bit by bit from the highest that can be.
static u32 root(u32 square) {
    u32 found = 0;
    for (i32 bit = (31 - __builtin_clz(square | 1)) / 2; bit >= 0; bit -= 1) {
        u32 tried = found | 1u << bit;
        if ((u64)tried * tried <= square) {
            found = tried;
        }
    }
    return found;
}

static u32 spread(const i16 *heights, i32 count, i32 middle) {
    u64 sum = 0;
    for (i32 i = 0; i < count; i += 1) {
        i64 off = (i64)(heights[i] - middle) * (heights[i] - middle);
        sum += off;
    }
    return root(sum / (u64)count);
}

// A reading in steps of 2^fine parts, rounded down, and back again.
static i64 coarse(i64 height, u32 fine) {
    return height >> fine << fine;
}

static void put_signed(struct line *line, i64 number) {
    put(line, ' ');
    if (number < 0) {
        put(line, '-');
    }
    put_number(line, magnitude(number), 1);
}

int main(void) {
    struct line line;
    i16 *heights = fresh(COUNT * sizeof(i16));
    seed = 20261115;
    line.length = 0;
    for (i32 i = 0; i < COUNT; i += 1) {
        heights[i] = reading(i);
    }
    i32 middle = mean(heights, COUNT);
    sort(heights, COUNT);
    count_bins(heights, COUNT, heights[0], (heights[COUNT - 1] - heights[0]) / 8 + 1);
    put_text(&line, "least, median, greatest, mean:");
    put_signed(&line, heights[0]);
    put_signed(&line, heights[COUNT / 2]);
    put_signed(&line, heights[COUNT - 1]);
    put_signed(&line, middle);
    end_line(&line, OUT);
    put_text(&line, "spread:");
    put_signed(&line, spread(heights, COUNT, middle));
    end_line(&line, OUT);
    put_text(&line, "in eighths:");
    for (u64 i = 0; i < 8; i += 1) {
        put_signed(&line, bins[i]);
    }
    end_line(&line, OUT);
    put_text(&line, "coarser:");
    for (u32 fine = 0; fine < 8; fine += 1) {
        put_signed(&line, coarse(heights[(u64)COUNT * fine / 8], fine));
    }
    end_line(&line, OUT);
    return root(bins[7]);
}
