# Writes three names, each by a row of a table: how far it is from the first, and how many bytes it has.
        .text
_start: la      s0, table
        la      s1, behind
        la      s2, names
next:   lbu     a1, 0(s0)
        add     a1, a1, s2
        lbu     a2, 1(s0)
        li      a0, 1           # the report's descriptor
        li      a7, 64          # write
        ecall
        addi    s0, s0, 2
        bne     s0, s1, next
        li      a0, 0
        li      a7, 93          # exit
        ecall

        .data
table:  .byte   0, 4
        .byte   4, 6
        .byte   10, 5
behind:
names:  .ascii  "red\n"
        .ascii  "green\n"
        .ascii  "blue\n"
