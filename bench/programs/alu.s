# A tight loop of register operations: sums, shifts, logic, comparisons, a branch that
# is taken seven times out of eight and one that always is.
        .set    noreorder
        .text
        .globl  _start
_start:
        daddiu  $8, $0, 1
        lui     $9, 0x9e37
        ori     $9, $9, 0x79b9
        move    $12, $0
loop:
        dsll    $10, $8, 13
        xor     $8, $8, $10
        dsrl    $10, $8, 7
        xor     $8, $8, $10
        dsll    $10, $8, 17
        xor     $8, $8, $10
        addu    $11, $8, $9
        sll     $13, $11, 5
        sra     $14, $11, 3
        nor     $15, $13, $14
        sltu    $24, $8, $15
        andi    $25, $16, 7
        bne     $25, $0, over
        daddu   $12, $12, $15
        subu    $12, $12, $24
over:
        b       loop
        daddiu  $16, $16, 1
