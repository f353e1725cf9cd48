// Positions in ten-thousandths of a metre, moved from the frame they were measured in to the frame of 2020. The
// parameters are made up; they have the size of those in use.

struct frame {
    u32 year;
    i64 shift[3]; // ten-thousandths of a metre
    i64 scale;    // parts in 10^12
    i64 turn[3];  // 10^-12 radians
};

static const struct frame frames[4] = {
    {2020, {0, 0, 0}, 0, {0, 0, 0}},
    {2014, {-14, -9, 14}, -420, {0, 0, 0}},
    {2008, {2, 10, 33}, -290, {0, 0, 388}},
    {2000, {-2, 8, -342}, 2250, {-97, 145, -1745}},
};

static const struct frame *frame_of(u32 year) {
    for (u64 i = 0; i < 4; i += 1) {
        if (frames[i].year == year) {
            return &frames[i];
        }
    }
    return 0;
}

// x times parts in 10^12, rounded to the nearest, halves away from zero.
static i64 part(i64 x, i64 parts) {
    u64 size = (magnitude(x) * magnitude(parts) + 500000000000) / 1000000000000;
    return (x < 0) == (parts < 0) ? (i64)size : -(i64)size;
}

static void transform(const struct frame *frame, i64 at[3]) {
    i64 x = at[0], y = at[1], z = at[2];
    const i64 *r = frame->turn;
    at[0] = x + frame->shift[0] + part(x, frame->scale) - part(y, r[2]) + part(z, r[1]);
    at[1] = y + frame->shift[1] + part(y, frame->scale) + part(x, r[2]) - part(z, r[0]);
    at[2] = z + frame->shift[2] + part(z, frame->scale) - part(x, r[1]) + part(y, r[0]);
}
