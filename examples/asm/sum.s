# Adds the numbers from 1 to 100, and exits with their sum, 5050.
        .text
_start: li      a0, 0           # the sum
        li      a1, 100         # the next number
next:   add     a0, a0, a1
        addi    a1, a1, -1
        bnez    a1, next
        li      a7, 93          # exit
        ecall
