# Adds up 1 to 100, each sum kept, by slides up that double their distance, and exits with the last sum, 5050.
        .text
_start: la      s0, sums
        li      s1, 0                           # the sum before
        li      s2, 1                           # the next number
        li      a2, 100                         # how many are left
next:   vsetvli t0, a2, e32, m2, ta, ma
        vid.v   v8
        vadd.vx v8, v8, s2                      # the next numbers
        li      t1, 1
slide:  bgeu    t1, t0, whole
        vmv.v.i v10, 0
        vslideup.vx v10, v8, t1
        vadd.vv v8, v8, v10
        slli    t1, t1, 1
        j       slide
whole:  vadd.vx v8, v8, s1
        vse32.v v8, (s0)
        slli    t1, t0, 2
        add     s0, s0, t1
        lw      s1, -4(s0)
        add     s2, s2, t0
        sub     a2, a2, t0
        bnez    a2, next
        mv      a0, s1
        li      a7, 93                          # exit
        ecall

        .data
sums:   .zero   400
