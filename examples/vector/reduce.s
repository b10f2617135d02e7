# Adds up 1,024 numbers of 64 bits, all of them 1, 16 times over, and exits with the sum, 16384.
        .text
_start: la      s0, numbers
        mv      a0, s0
        li      a2, 1024                        # how many are left
        vsetvli t0, zero, e64, m8, ta, ma
        vmv.v.i v8, 1
fill:   vsetvli t0, a2, e64, m8, ta, ma
        vse64.v v8, (a0)
        slli    t1, t0, 3
        add     a0, a0, t1
        sub     a2, a2, t0
        bnez    a2, fill

        vmv.s.x v16, zero                       # the sum
        li      s2, 16                          # how many times are left
again:  mv      a0, s0
        li      a2, 1024
next:   vsetvli t0, a2, e64, m8, ta, ma
        vle64.v v8, (a0)
        vredsum.vs v16, v8, v16
        slli    t1, t0, 3
        add     a0, a0, t1
        sub     a2, a2, t0
        bnez    a2, next
        addi    s2, s2, -1
        bnez    s2, again
        vmv.x.s a0, v16
        li      a7, 93                          # exit
        ecall

        .data
numbers: .zero  8192
