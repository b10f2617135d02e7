# Computes 10 factorial by a function that calls itself, and exits with it: 3628800.
        .text
_start: li      a0, 10
        jal     ra, factorial
        li      a7, 93          # exit
        ecall

# Of the number in a0, in a0. What is needed behind the inner call stands on the stack meanwhile.
factorial:
        bnez    a0, more
        li      a0, 1
        ret
more:   addi    sp, sp, -16
        sd      ra, 8(sp)
        sd      a0, 0(sp)
        addi    a0, a0, -1
        jal     ra, factorial
        ld      a1, 0(sp)
        ld      ra, 8(sp)
        addi    sp, sp, 16
        mul     a0, a0, a1
        ret
