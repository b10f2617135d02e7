# Mixes two sounds of 100 samples of 16 bits: adds them with saturation. It exits with how many of the sums were saturated, 42 of 100.
        .text
_start: la      s0, left
        la      s1, right
        li      t0, 0
        li      t3, 600
        li      t4, 700
fill:   mul     t1, t0, t3
        sh      t1, 0(s0)
        mul     t1, t0, t4
        sh      t1, 0(s1)
        addi    s0, s0, 2
        addi    s1, s1, 2
        addi    t0, t0, 1
        slti    t1, t0, 100
        bnez    t1, fill

        la      s0, left
        la      s1, right
        li      a2, 100                         # how many are left
        li      a0, 0                           # how many were saturated
next:   vsetvli t0, a2, e16, m2, ta, ma
        vle16.v v8, (s0)
        vle16.v v10, (s1)
        vsadd.vv v12, v8, v10
        vadd.vv v14, v8, v10                    # the sum that wraps
        vmsne.vv v0, v12, v14
        vcpop.m t1, v0
        add     a0, a0, t1
        vse16.v v12, (s0)
        slli    t1, t0, 1
        add     s0, s0, t1
        add     s1, s1, t1
        sub     a2, a2, t0
        bnez    a2, next
        li      a7, 93                          # exit
        ecall

        .data
left:   .zero   200
right:  .zero   200
