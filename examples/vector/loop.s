# Adds 1 to each of 1,024 numbers of 64 bits, 16 times over, in groups of one register, and exits with the last of them, 16. `build`
# makes it for groups of 1, 2, 4 and 8 registers.
        .text
_start: la      s0, numbers
        li      s2, 16                          # how many times are left
again:  mv      a0, s0
        li      a2, 1024                        # how many numbers are left
next:   vsetvli t0, a2, e64, m1, ta, ma
        vle64.v v8, (a0)
        vadd.vi v8, v8, 1
        vse64.v v8, (a0)
        slli    t1, t0, 3
        add     a0, a0, t1
        sub     a2, a2, t0
        bnez    a2, next
        addi    s2, s2, -1
        bnez    s2, again
        ld      a0, -8(a0)
        li      a7, 93                          # exit
        ecall

        .data
numbers: .zero  8192
