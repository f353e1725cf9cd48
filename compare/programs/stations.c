// A reduction: stations with their frames and coordinates are read as text, kept as packed records, moved to one
// frame, and summed to a mean position. The 64-bit fields of the records lie at every offset from eight.

#include "calls.h"
#include "text.h"
#include "transform.h"

struct __attribute__((packed)) station {
    u8 name[4];
    u8 frame; // years since 2000
    i64 at[3];
    u16 weight;
};

struct cursor {
    const u8 *at;
    const u8 *end;
};

static u8 peek(const struct cursor *c) {
    return c->at < c->end ? *c->at : '\n';
}

static void skip_spaces(struct cursor *c) {
    while (peek(c) == ' ') {
        c->at += 1;
    }
}

static void skip_line(struct cursor *c) {
    while (peek(c) != '\n') {
        c->at += 1;
    }
    c->at += 1;
}

// A decimal number in ten-thousandths: its fraction is cut or filled up to four digits.
static i64 read_fixed(struct cursor *c) {
    u64 value = 0;
    i64 places = -1;
    skip_spaces(c);
    u8 negative = peek(c) == '-';
    if (negative) {
        c->at += 1;
    }
    for (;; c->at += 1) {
        u8 byte = peek(c);
        if (byte == '.' && places < 0) {
            places = 0;
        } else if (byte >= '0' && byte <= '9') {
            if (places < 4) {
                value = value * 10 + (byte - '0');
                places += places >= 0;
            }
        } else {
            break;
        }
    }
    for (i64 i = places < 0 ? 0 : places; i < 4; i += 1) {
        value *= 10;
    }
    return negative ? -(i64)value : (i64)value;
}

static void read_station(struct cursor *c, struct station *s) {
    for (u64 i = 0; i < 4; i += 1) {
        s->name[i] = peek(c);
        c->at += 1;
    }
    s->frame = read_fixed(c) / 10000 - 2000;
    for (u64 i = 0; i < 3; i += 1) {
        s->at[i] = read_fixed(c);
    }
    s->weight = read_fixed(c) / 10000;
}

static void put_position(struct line *line, const i64 at[3]) {
    for (u64 i = 0; i < 3; i += 1) {
        put(line, ' ');
        put_fixed(line, at[i]);
    }
}

static void put_name(struct line *line, const struct station *s) {
    for (u64 i = 0; i < 4; i += 1) {
        put(line, s->name[i]);
    }
}

// The weighted mean, halves away from zero.
static i64 mean(i64 sum, u64 weight) {
    u64 size = (magnitude(sum) + weight / 2) / weight;
    return sum < 0 ? -(i64)size : (i64)size;
}

int main(void) {
    struct input text = fetch("stations");
    struct cursor c = {text.bytes, text.bytes + text.length};
    struct station *all = fresh(text.length);
    u64 count = 0, used = 0, weight = 0;
    i64 sum[3] = {0, 0, 0};
    struct line line;
    line.length = 0;
    while (c.at < c.end) {
        read_station(&c, &all[count]);
        skip_line(&c);
        count += 1;
    }
    for (u64 i = 0; i < count; i += 1) {
        const struct station *s = &all[i];
        const struct frame *frame = frame_of(2000 + s->frame);
        i64 at[3] = {s->at[0], s->at[1], s->at[2]};
        put_name(&line, s);
        if (frame == 0) {
            put_text(&line, ": no such frame");
            end_line(&line, ERR);
            continue;
        }
        transform(frame, at);
        put_position(&line, at);
        end_line(&line, OUT);
        for (u64 k = 0; k < 3; k += 1) {
            sum[k] += at[k] * s->weight;
        }
        weight += s->weight;
        used += 1;
    }
    if (weight != 0) {
        i64 at[3] = {mean(sum[0], weight), mean(sum[1], weight), mean(sum[2], weight)};
        put_text(&line, "mean");
        put_position(&line, at);
        end_line(&line, OUT);
    }
    return used;
}
