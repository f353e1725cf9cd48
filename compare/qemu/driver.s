# Runs one instruction after another for a judge that watches: reads jobs from standard input, writes what came of
# them to standard output. A job says what all registers, hi, lo and 24 bytes of memory hold, which words to lay
# where, and where to start. The names from JOB to RESULT_LENGTH below are the two layouts.
#
# All registers belong to the job. What the driver itself needs lies below 0x8000, where an offset from register 0
# reaches it.

        .set    noreorder
        .set    noat
        .set    nomacro

        .equ    JOB, 0x4000             # registers 0 to 31, then:
        .equ    JOB_HI, JOB + 0x100
        .equ    JOB_LO, JOB + 0x108
        .equ    JOB_START, JOB + 0x110  # where to start
        .equ    JOB_WINDOW, JOB + 0x118 # address of the 24 bytes
        .equ    JOB_BYTES, JOB + 0x120  # the 24 bytes
        .equ    JOB_WORDS, JOB + 0x138  # how many words to lay
        .equ    JOB_LAY, JOB + 0x140    # eight times: address, word, four spare bytes
        .equ    JOB_LENGTH, 0x1C0

        .equ    RESULT, 0x4400          # registers 0 to 31, then:
        .equ    RESULT_HI, RESULT + 0x100
        .equ    RESULT_LO, RESULT + 0x108
        .equ    MARKS, RESULT + 0x110   # three marks, not 0; a laid `sd $0` clears one when it is reached
        .equ    SIGNAL, RESULT + 0x128  # 0, or the signal that stopped the job
        .equ    RESULT_BYTES, RESULT + 0x130
        .equ    RESULT_LENGTH, 0x148

        .equ    BACK, 0x4700            # where a job returns to
        .equ    SIGSTACK, 0x5000
        .equ    SIGSTACK_LENGTH, 0x2000

        .equ    READ, 5000
        .equ    WRITE, 5001
        .equ    MMAP, 5009
        .equ    SIGACTION, 5013
        .equ    EXIT, 5058
        .equ    SIGALTSTACK, 5129

        .equ    REGION, 0x200000        # length of a region
        .equ    LAST_PAGE, REGION - 0x1000

        .section .low, "aw", @nobits
        .space  0x4000

        .text
        .globl  _start
_start: lui     $8, %hi(back)
        addiu   $8, $8, %lo(back)
        sd      $8, BACK($0)
        lui     $16, %hi(regions)
        addiu   $16, $16, %lo(regions)

# Every region is mapped; the first and the last page of each hold the way back.
region: ld      $17, 0($16)
        beqz    $17, signals
        daddiu  $16, $16, 8
        move    $4, $17
        lui     $5, REGION >> 16
        ori     $6, $0, 7               # read, write, execute
        ori     $7, $0, 0xC12           # private, fixed, anonymous, no reserve
        daddiu  $8, $0, -1
        ori     $9, $0, 0
        ori     $2, $0, MMAP
        syscall
        bnez    $7, fail
        nop
        bne     $2, $17, fail
        nop
        bal     lay_pad
        move    $9, $17
        lui     $8, LAST_PAGE >> 16
        ori     $8, $8, LAST_PAGE & 0xFFFF
        bal     lay_pad
        daddu   $9, $17, $8
        b       region
        nop

# Copies the way back to the address in register 9.
lay_pad:
        lui     $10, %hi(pad)
        addiu   $10, $10, %lo(pad)
        lui     $11, %hi(pad_end)
        addiu   $11, $11, %lo(pad_end)
1:      lw      $12, 0($10)
        daddiu  $10, $10, 4
        sw      $12, 0($9)
        bne     $10, $11, 1b
        daddiu  $9, $9, 4
        jr      $31
        nop

# Signals are taken on a stack of their own: register 29 belongs to the job.
signals:
        lui     $4, %hi(stack)
        addiu   $4, $4, %lo(stack)
        ori     $5, $0, 0
        ori     $2, $0, SIGALTSTACK
        syscall
        bnez    $7, fail
        lui     $16, %hi(numbers)
        addiu   $16, $16, %lo(numbers)
1:      lw      $4, 0($16)
        beqz    $4, next
        daddiu  $16, $16, 4
        lui     $5, %hi(action)
        addiu   $5, $5, %lo(action)
        ori     $6, $0, 0
        ori     $7, $0, 16
        ori     $2, $0, SIGACTION
        syscall
        beqz    $7, 1b
        nop

fail:   ori     $4, $0, 1
leave:  ori     $2, $0, EXIT
        syscall

# Reads a job: all of it, however many calls that takes. No byte at the beginning of one is the end.
next:   ori     $16, $0, 0
1:      ori     $4, $0, 0
        daddiu  $5, $16, JOB
        ori     $6, $0, JOB_LENGTH
        dsubu   $6, $6, $16
        ori     $2, $0, READ
        syscall
        bnez    $7, fail
        nop
        bnez    $2, 2f
        daddu   $16, $16, $2
        bnez    $16, fail
        ori     $4, $0, 0
        b       leave
        nop
2:      ori     $6, $0, JOB_LENGTH
        bne     $16, $6, 1b
        nop

# Lays the words, the 24 bytes and the marks.
        ld      $8, JOB_WORDS($0)
        ori     $9, $0, JOB_LAY
1:      beqz    $8, 2f
        nop
        ld      $10, 0($9)
        lw      $11, 8($9)
        sw      $11, 0($10)
        daddiu  $9, $9, 16
        b       1b
        daddiu  $8, $8, -1
2:      ld      $8, JOB_WINDOW($0)
        ld      $9, JOB_BYTES($0)
        ld      $10, JOB_BYTES + 8($0)
        ld      $11, JOB_BYTES + 16($0)
        sd      $9, 0($8)
        sd      $10, 8($8)
        sd      $11, 16($8)
        daddiu  $9, $0, -1
        sd      $9, MARKS($0)
        sd      $9, MARKS + 8($0)
        sd      $9, MARKS + 16($0)
        sd      $0, SIGNAL($0)

# Hands all registers over. Register 26 is loaded in the delay slot of the jump through it.
        ld      $8, JOB_HI($0)
        mthi    $8
        ld      $8, JOB_LO($0)
        mtlo    $8
        ld      $26, JOB_START($0)
        .irp    n, 1, 2, 3, 4, 5, 6, 7, 8, 9, 10, 11, 12, 13, 14, 15, 16, 17, 18, 19, 20, 21, 22, 23, 24, 25, 27, 28, 29, 30, 31
        ld      $\n, (JOB + 8 * \n)($0)
        .endr
        jr      $26
        ld      $26, JOB + 8 * 26($0)

# The way back: keeps all registers, hi and lo. Runs from wherever it was copied to.
pad:    .irp    n, 0, 1, 2, 3, 4, 5, 6, 7, 8, 9, 10, 11, 12, 13, 14, 15, 16, 17, 18, 19, 20, 21, 22, 23, 24, 25, 26, 27, 28, 29, 30, 31
        sd      $\n, (RESULT + 8 * \n)($0)
        .endr
        mfhi    $8
        mflo    $9
        sd      $8, RESULT_HI($0)
        sd      $9, RESULT_LO($0)
        ld      $8, BACK($0)
        jr      $8
        nop
pad_end:

# A signal: its number, and the registers as they were, out of the context in register 6.
handler:
        sd      $4, SIGNAL($0)
        .irp    n, 0, 1, 2, 3, 4, 5, 6, 7, 8, 9, 10, 11, 12, 13, 14, 15, 16, 17, 18, 19, 20, 21, 22, 23, 24, 25, 26, 27, 28, 29, 30, 31
        ld      $8, (40 + 8 * \n)($6)
        sd      $8, (RESULT + 8 * \n)($0)
        .endr
        ld      $8, 552($6)
        sd      $8, RESULT_HI($0)
        ld      $8, 584($6)
        sd      $8, RESULT_LO($0)

# Writes what came of the job.
back:   ld      $8, JOB_WINDOW($0)
        ld      $9, 0($8)
        ld      $10, 8($8)
        ld      $11, 16($8)
        sd      $9, RESULT_BYTES($0)
        sd      $10, RESULT_BYTES + 8($0)
        sd      $11, RESULT_BYTES + 16($0)
        ori     $4, $0, 1
        ori     $5, $0, RESULT
        ori     $6, $0, RESULT_LENGTH
        ori     $2, $0, WRITE
        syscall
        bnez    $7, fail
        ori     $6, $0, RESULT_LENGTH
        bne     $2, $6, fail
        nop
        b       next
        nop

        .section .rodata
        .align  3
# Two megabytes each, with the end of a jump's 256-megabyte segment in the middle: first for code, then for data.
regions:
        .dword  0x000000000FF00000
        .dword  0x000000007FF00000
        .dword  0x00000000FFF00000
        .dword  0x000000123FF00000
        .dword  0x000000002FF00000
        .dword  0x00000000BFF00000
        .dword  0x00000001FFF00000
        .dword  0x000000456FF00000
        .dword  0
stack:  .dword  SIGSTACK
        .dword  SIGSTACK_LENGTH
        .dword  0
# With information, on its own stack, not held back while one is being handled: the handler never returns.
action: .word   0x48000008
        .word   0
        .dword  handler
        .dword  0
        .dword  0
# Illegal instruction, trap, arithmetic, bus error, no such memory.
numbers:
        .word   4, 5, 8, 10, 11, 0
