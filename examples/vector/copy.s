# Copies 1,024 numbers of 64 bits, all of them 7, 16 times over, and exits with the last of the copies.
        .text
_start: la      s0, numbers
        la      s1, copies
        mv      a0, s0
        li      a2, 1024                        # how many are left
        vsetvli t0, zero, e64, m8, ta, ma
        vmv.v.i v8, 7
fill:   vsetvli t0, a2, e64, m8, ta, ma
        vse64.v v8, (a0)
        slli    t1, t0, 3
        add     a0, a0, t1
        sub     a2, a2, t0
        bnez    a2, fill

        li      s2, 16                          # how many times are left
again:  mv      a0, s0
        mv      a1, s1
        li      a2, 1024
next:   vsetvli t0, a2, e64, m8, ta, ma
        vle64.v v8, (a0)
        vse64.v v8, (a1)
        slli    t1, t0, 3
        add     a0, a0, t1
        add     a1, a1, t1
        sub     a2, a2, t0
        bnez    a2, next
        addi    s2, s2, -1
        bnez    s2, again
        ld      a0, -8(a1)
        li      a7, 93                          # exit
        ecall

        .data
numbers: .zero  8192
copies: .zero   8192
