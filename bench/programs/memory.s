# A loop of loads and stores of all lengths, aligned and not, over half a page, again and again. No address and no branch
# hangs on what was loaded, so that both rules go the same way.
        .set    noreorder
        .text
        .globl  _start
_start:
        lui     $4, 4
        daddiu  $5, $4, 2048
again:
        move    $8, $4
loop:
        ld      $9, 0($8)
        lw      $10, 8($8)
        daddu   $9, $9, $8
        sd      $9, 16($8)
        lb      $11, 3($8)
        lhu     $12, 6($8)
        sw      $9, 12($8)
        sb      $12, 25($8)
        lwl     $13, 5($8)
        lwr     $13, 8($8)
        sh      $13, 30($8)
        swl     $9, 33($8)
        swr     $9, 36($8)
        lwu     $14, 20($8)
        sd      $14, 8($8)
        daddiu  $8, $8, 16
        bne     $8, $5, loop
        lbu     $15, 1($8)
        b       again
        daddiu  $16, $16, 1
