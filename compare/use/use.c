/* The machine and the checker from C: one step with its record, the checker's answer, and its answer to a changed record. */
#include <inttypes.h>
#include <stdio.h>

#include "rocchivanda.h"

int main(void)
{
    static uint8_t state[ROCCHIVANDA_STATE_SIZE], pages[ROCCHIVANDA_PAGE_SIZE], record[ROCCHIVANDA_RECORD_SIZE];
    static uint8_t hint[1], output[1], none[1];
    uint64_t answer[ROCCHIVANDA_ANSWER_SIZE] = {1}; /* one page record is used: page 0 */
    const uint8_t addiu[4] = {0x24, 0x08, 0x00, 0x07}; /* addiu r8, r0, 7 */
    for (int i = 0; i < 4; i++)
        pages[8 + i] = addiu[i]; /* at address 0, behind the page's number */
    state[271] = 4; /* next_pc is 4 */
    state[354] = 1; /* rules 1 */

    uint64_t kind = rocchivanda_step_recorded(state, sizeof state, pages, sizeof pages, hint, sizeof hint,
        output, sizeof output, none, 0, none, 0, record, sizeof record, answer, ROCCHIVANDA_ANSWER_SIZE);
    printf("kind %" PRIu64 ", register 8 is %d\n", kind, state[71]);
    printf("its record: %" PRIu64 "\n", rocchivanda_check(record, sizeof record));
    record[360 + 71] ^= 1; /* register 8 of the new state */
    printf("one bit changed: %" PRIu64 "\n", rocchivanda_check(record, sizeof record));
}
