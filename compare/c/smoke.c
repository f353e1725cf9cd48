/*
 * Calls every function of include/rocchivanda.h from C. What is expected comes from document 01 and is worked by hand in
 * the comments; nothing here knows the machine.
 */
#undef NDEBUG
#include <assert.h>
#include <stdio.h>
#include <string.h>

#include "rocchivanda.h"

/* Where a state's parts stand. */
enum {
    PC = 256,
    NEXT_PC = 264,
    STEP = 296,
    OFFSET = 304,
    HINT_LENGTH = 312,
    KEY = 320,
    EXITED = 352,
    CODE = 353,
    RULES = 354,
    SPARE = 355
};

/* Where a record's parts stand. */
enum { NEW_STATE = 360, WORD = 720, ADDRESS = 728, OLD_EIGHT = 736, NEW_EIGHT = 744 };

enum { PAGE = ROCCHIVANDA_PAGE_SIZE, FILL = 0x5a };

/* All that a call may change, so that one comparison shows whether it did. The pages are two records and 3 bytes more. */
struct lent {
    uint8_t state[ROCCHIVANDA_STATE_SIZE];
    uint8_t pages[2 * PAGE + 3];
    uint8_t hint[16];
    uint8_t output[8];
    uint8_t record[ROCCHIVANDA_RECORD_SIZE];
    uint64_t answer[6];
};

static uint8_t index_bytes[ROCCHIVANDA_INDEX_SIZE];
static uint8_t data_bytes[5];

static void put(uint8_t *at, int bytes, uint64_t value)
{
    for (int i = bytes; i-- > 0; value >>= 8)
        at[i] = (uint8_t)value;
}

static uint64_t get(const uint8_t *at, int bytes)
{
    uint64_t value = 0;
    for (int i = 0; i < bytes; i++)
        value = value << 8 | at[i];
    return value;
}

static void set_register(struct lent *m, int i, uint64_t value)
{
    put(m->state + 8 * i, 8, value);
}

/* A step that is no jump leaves pc = next_pc, next_pc + 4 and one step more. */
static void onward(struct lent *m)
{
    put(m->state + PC, 8, get(m->state + NEXT_PC, 8));
    put(m->state + NEXT_PC, 8, get(m->state + NEXT_PC, 8) + 4);
    put(m->state + STEP, 8, get(m->state + STEP, 8) + 1);
}

static void answers(struct lent *m, uint64_t used, uint64_t first, uint64_t second, uint64_t count)
{
    m->answer[0] = used;
    m->answer[1] = first;
    m->answer[2] = second;
    m->answer[3] = count;
}

static void same(const struct lent *got, const struct lent *wanted)
{
    assert(memcmp(got->state, wanted->state, sizeof got->state) == 0);
    assert(memcmp(got->pages, wanted->pages, sizeof got->pages) == 0);
    assert(memcmp(got->hint, wanted->hint, sizeof got->hint) == 0);
    assert(memcmp(got->output, wanted->output, sizeof got->output) == 0);
    assert(memcmp(got->record, wanted->record, sizeof got->record) == 0);
    assert(memcmp(got->answer, wanted->answer, sizeof got->answer) == 0);
}

/* A machine at pc 0x1000 whose page 1 begins with these words, one record used, rules 0, step 41, register 8 = 7. */
static struct lent machine(const uint32_t *words, int count)
{
    struct lent m;
    memset(&m, FILL, sizeof m);
    memset(m.state, 0, sizeof m.state);
    put(m.state + PC, 8, 0x1000);
    put(m.state + NEXT_PC, 8, 0x1004);
    put(m.state + STEP, 8, 41);
    set_register(&m, 8, 7);
    put(m.pages, 8, 1);
    for (int i = 0; i < count; i++)
        put(m.pages + 8 + 4 * i, 4, words[i]);
    m.answer[0] = 1;
    return m;
}

static uint64_t step_with(struct lent *m, size_t state_size, size_t answer_size)
{
    return rocchivanda_step(m->state, state_size, m->pages, sizeof m->pages, m->hint, sizeof m->hint,
        m->output, sizeof m->output, index_bytes, sizeof index_bytes, data_bytes, sizeof data_bytes,
        m->answer, answer_size);
}

static uint64_t step(struct lent *m)
{
    return step_with(m, sizeof m->state, 6);
}

static uint64_t recorded_with(struct lent *m, size_t record_size, size_t answer_size)
{
    return rocchivanda_step_recorded(m->state, sizeof m->state, m->pages, sizeof m->pages, m->hint, sizeof m->hint,
        m->output, sizeof m->output, index_bytes, sizeof index_bytes, data_bytes, sizeof data_bytes,
        m->record, record_size, m->answer, answer_size);
}

static uint64_t run_with(struct lent *m, uint64_t budget, size_t answer_size)
{
    return rocchivanda_run(m->state, sizeof m->state, m->pages, sizeof m->pages, m->hint, sizeof m->hint,
        m->output, sizeof m->output, index_bytes, sizeof index_bytes, data_bytes, sizeof data_bytes,
        budget, m->answer, answer_size);
}

static uint64_t run(struct lent *m, uint64_t budget)
{
    return run_with(m, budget, 6);
}

/* DADDIU $9, $8, 5 is 25 << 26 | 8 << 21 | 9 << 16 | 5. */
static const uint32_t daddiu = 0x65090005;

/* SD $8, 0($10) is 63 << 26 | 10 << 21 | 8 << 16. */
static const uint32_t sd = 0xfd480000;

static const uint32_t syscall_word = 0x0000000c;

/* Document 01's example 14, and its words on 753 zero bytes: 752 zeros are 27, what is shorter is 21. */
static void checks(void)
{
    uint8_t record[ROCCHIVANDA_RECORD_SIZE] = {0};
    assert(rocchivanda_check(record, 752) == 27);
    assert(rocchivanda_check(record, 751) == 21);
    record[631] = 4;
    record[663] = 1;
    assert(rocchivanda_check(record, 752) == 0);
}

/* 7 + 5 in register 9. */
static void steps(void)
{
    struct lent m = machine(&daddiu, 1);
    struct lent wanted = m;
    set_register(&wanted, 9, 12);
    onward(&wanted);
    answers(&wanted, 1, 0, 0, 1);
    assert(step(&m) == ROCCHIVANDA_STEPPED);
    same(&m, &wanted);
}

/* Page 5 is absent: it takes the second record with its number and zeros, then 7 at its front, and two records are used.
   The 3 bytes behind it stay. */
static void opened(struct lent *wanted)
{
    put(wanted->pages + PAGE, 8, 5);
    memset(wanted->pages + PAGE + 8, 0, 4096);
    put(wanted->pages + PAGE + 8, 8, 7);
    onward(wanted);
    answers(wanted, 2, 0, 0, 1);
}

static void stores(void)
{
    struct lent m = machine(&sd, 1);
    set_register(&m, 10, 0x5000);
    struct lent wanted = m;
    opened(&wanted);
    assert(step(&m) == ROCCHIVANDA_STEPPED);
    same(&m, &wanted);

    /* A third page finds no record: 8, which changes only the step counter. */
    wanted = m;
    put(m.pages + 8 + 4, 4, sd);
    put(wanted.pages + 8 + 4, 4, sd);
    set_register(&m, 10, 0x7000);
    set_register(&wanted, 10, 0x7000);
    put(wanted.state + STEP, 8, 43);
    answers(&wanted, 2, 8, 0, 0);
    assert(step(&m) == ROCCHIVANDA_REFUSED);
    same(&m, &wanted);
}

/* The same store with its record: both states, the word, the address, and the eight bytes, 0 before and 7 after. */
static void records(void)
{
    struct lent m = machine(&sd, 1);
    set_register(&m, 10, 0x5000);
    struct lent before = m;
    struct lent wanted = m;
    opened(&wanted);
    memcpy(wanted.record, before.state, sizeof before.state);
    memcpy(wanted.record + NEW_STATE, wanted.state, sizeof wanted.state);
    put(wanted.record + WORD, 8, (uint64_t)sd << 32);
    put(wanted.record + ADDRESS, 8, 0x5000);
    put(wanted.record + OLD_EIGHT, 8, 0);
    put(wanted.record + NEW_EIGHT, 8, 7);
    assert(recorded_with(&m, 752, 6) == ROCCHIVANDA_STEPPED);
    same(&m, &wanted);
    assert(rocchivanda_check(m.record, 752) == 0);
    m.record[NEW_EIGHT + 7] = 8;
    assert(rocchivanda_check(m.record, 752) == 27);

    /* A buffer of 751 bytes is refused with 1. */
    m = before;
    wanted = before;
    answers(&wanted, 1, 1, 0, 0);
    assert(recorded_with(&m, 751, 6) == ROCCHIVANDA_REFUSED);
    same(&m, &wanted);
}

/* 5001 on 1 writes the 4 bytes of the program's own first word; it is wide, so its record buffer stays. */
static void writes(void)
{
    struct lent m = machine(&syscall_word, 1);
    set_register(&m, 2, 5001);
    set_register(&m, 4, 1);
    set_register(&m, 5, 0x1000);
    set_register(&m, 6, 4);
    struct lent wanted = m;
    put(wanted.output, 4, syscall_word);
    set_register(&wanted, 2, 4);
    onward(&wanted);
    answers(&wanted, 1, 1, 4, 1);
    assert(recorded_with(&m, 752, 6) == ROCCHIVANDA_WROTE);
    same(&m, &wanted);
}

/* 5001 on 4 with a length of 2 and the bytes "hi": a whole hint, handed out without its length. */
static void hints(void)
{
    static const uint32_t words[] = {0x0000000c, 0x00000002, 0x68690000};
    struct lent m = machine(words, 3);
    set_register(&m, 2, 5001);
    set_register(&m, 4, 4);
    set_register(&m, 5, 0x1004);
    set_register(&m, 6, 6);
    struct lent wanted = m;
    put(wanted.hint, 4, 2);
    memcpy(wanted.hint + 4, "hi", 2);
    memcpy(wanted.output, "hi", 2);
    set_register(&wanted, 2, 6);
    onward(&wanted);
    answers(&wanted, 1, 2, 0, 1);
    assert(step(&m) == ROCCHIVANDA_HINT);
    same(&m, &wanted);
}

/* 5000 on 5 at offset 8 behind the length: the input has 3 bytes, from 1 on, so 3 of the 8 asked are copied. */
static void reads(void)
{
    struct lent m = machine(&syscall_word, 1);
    for (int i = 0; i < 32; i++)
        m.state[KEY + i] = index_bytes[i] = (uint8_t)(i + 1);
    put(index_bytes + 32, 8, 1);
    put(index_bytes + 40, 8, 3);
    memcpy(data_bytes, "xabcy", 5);
    put(m.state + OFFSET, 8, 8);
    set_register(&m, 2, 5000);
    set_register(&m, 4, 5);
    set_register(&m, 5, 0x1008);
    set_register(&m, 6, 8);
    struct lent wanted = m;
    memcpy(wanted.pages + 8 + 8, "abc", 3);
    put(wanted.state + OFFSET, 8, 11);
    set_register(&wanted, 2, 3);
    onward(&wanted);
    answers(&wanted, 1, 0, 0, 1);
    assert(step(&m) == ROCCHIVANDA_STEPPED);
    same(&m, &wanted);
}

/* DADDIU $9, $8, 5; DADDIU $2, $0, 5205; DADDIU $4, $0, 0x107; SYSCALL: exits with the low byte of register 4, after four
   counted steps. Registers and pc stay in the last. */
static void runs(void)
{
    static const uint32_t words[] = {0x65090005, 0x64021455, 0x64040107, 0x0000000c};
    struct lent m = machine(words, 4);
    struct lent wanted = m;
    set_register(&wanted, 9, 12);
    onward(&wanted);
    answers(&wanted, 1, 0, 0, 1);
    assert(run(&m, 1) == ROCCHIVANDA_STEPPED);
    same(&m, &wanted);

    /* Budget 0 makes no step. */
    answers(&wanted, 1, 0, 0, 0);
    assert(run(&m, 0) == ROCCHIVANDA_STEPPED);
    same(&m, &wanted);

    set_register(&wanted, 2, 5205);
    set_register(&wanted, 4, 0x107);
    onward(&wanted);
    onward(&wanted);
    put(wanted.state + STEP, 8, 45);
    wanted.state[EXITED] = 1;
    wanted.state[CODE] = 7;
    answers(&wanted, 1, 7, 0, 3);
    assert(run(&m, 100) == ROCCHIVANDA_EXITED);
    same(&m, &wanted);

    /* From an exited state: the code again, nothing counted. */
    answers(&wanted, 1, 7, 0, 0);
    assert(run(&m, 100) == ROCCHIVANDA_EXITED);
    same(&m, &wanted);
    assert(step(&m) == ROCCHIVANDA_EXITED);
    same(&m, &wanted);
}

/* What is refused with 1 changes nothing but the answer, whose used records stay. */
static void refuses(struct lent m, size_t state_size, uint64_t idle)
{
    const struct lent before = m;
    struct lent wanted = m;
    answers(&wanted, m.answer[0], 1, 0, 0);
    assert(step_with(&m, state_size, 6) == ROCCHIVANDA_REFUSED);
    same(&m, &wanted);
    if (state_size != sizeof m.state)
        return;
    m = before;
    assert(recorded_with(&m, 752, 6) == ROCCHIVANDA_REFUSED);
    same(&m, &wanted);
    m = before;
    assert(run(&m, 1) == ROCCHIVANDA_REFUSED);
    same(&m, &wanted);

    /* Budget 0 asks only for a well-formed state. */
    m = before;
    answers(&wanted, m.answer[0], idle == ROCCHIVANDA_REFUSED, 0, 0);
    assert(run(&m, 0) == idle);
    same(&m, &wanted);
}

static void refusals(void)
{
    struct lent m = machine(&daddiu, 1);
    refuses(m, sizeof m.state - 1, 0);
    m.state[EXITED] = 2;
    refuses(m, sizeof m.state, ROCCHIVANDA_REFUSED);
    for (int i = 0; i < 5; i++) {
        m = machine(&daddiu, 1);
        m.state[SPARE + i] = 1;
        refuses(m, sizeof m.state, ROCCHIVANDA_REFUSED);
    }
    m = machine(&daddiu, 1);
    m.state[RULES] = 2;
    refuses(m, sizeof m.state, ROCCHIVANDA_STEPPED);
    m = machine(&daddiu, 1);
    put(m.state + HINT_LENGTH, 8, 17);
    refuses(m, sizeof m.state, ROCCHIVANDA_STEPPED);
    put(m.state + HINT_LENGTH, 8, 65537);
    refuses(m, sizeof m.state, ROCCHIVANDA_STEPPED);
    m = machine(&daddiu, 1);
    m.answer[0] = 3;
    refuses(m, sizeof m.state, ROCCHIVANDA_STEPPED);
}

/* Three entries for the answer: the result is 4, and nothing at all changes. */
static void too_few(void)
{
    struct lent m = machine(&daddiu, 1);
    const struct lent before = m;
    assert(step_with(&m, sizeof m.state, 3) == 4);
    same(&m, &before);
    assert(recorded_with(&m, 752, 3) == 4);
    same(&m, &before);
    assert(run_with(&m, 1, 3) == 4);
    same(&m, &before);
    assert(run_with(&m, 0, 3) == 4);
    same(&m, &before);

    /* Four are enough. */
    assert(step_with(&m, sizeof m.state, 4) == ROCCHIVANDA_STEPPED);
    assert(m.answer[3] == 1);
}

int main(void)
{
    assert(rocchivanda_version() == ROCCHIVANDA_VERSION);
    checks();
    steps();
    stores();
    records();
    writes();
    hints();
    reads();
    runs();
    refusals();
    too_few();
    puts("smoke: every call from C gave what document 01 says");
    return 0;
}
