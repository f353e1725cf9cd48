# Goes from register 4 to register 5 by register 6, again and again: a load and a store each time.
        .set    noreorder
        .text
        .globl  _start
_start:
        move    $8, $4
loop:
        ld      $9, 0($8)
        daddiu  $9, $9, 1
        sd      $9, 0($8)
        daddu   $8, $8, $6
        bne     $8, $5, loop
        nop
        b       _start
        nop
