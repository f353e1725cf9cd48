// Lines of text.

struct line {
    u8 bytes[160];
    u64 length;
};

static void put(struct line *line, u8 byte) {
    line->bytes[line->length] = byte;
    line->length += 1;
}

static void put_text(struct line *line, const char *text) {
    while (*text != 0) {
        put(line, *text);
        text += 1;
    }
}

// At least so many digits.
static void put_number(struct line *line, u64 number, u64 digits) {
    u8 back[20];
    u64 count = 0;
    do {
        back[count] = '0' + number % 10;
        number /= 10;
        count += 1;
    } while (number != 0 || count < digits);
    while (count > 0) {
        count -= 1;
        put(line, back[count]);
    }
}

static u64 magnitude(i64 number) {
    return number < 0 ? -(u64)number : (u64)number;
}

// Ten-thousandths as a decimal fraction.
static void put_fixed(struct line *line, i64 number) {
    u64 size = magnitude(number);
    if (number < 0) {
        put(line, '-');
    }
    put_number(line, size / 10000, 1);
    put(line, '.');
    put_number(line, size % 10000, 4);
}

static void end_line(struct line *line, i64 to) {
    put(line, '\n');
    write_all(to, line->bytes, line->length);
    line->length = 0;
}
