# The sum of the products of two lists of 20 numbers, as many at a time as vector registers hold, of whatever length they are. It
# exits with 1 * 1 + 2 * 2 + .. + 20 * 20, 2870.
        .text
_start: la      a0, left
        la      a1, right
        li      a2, 20                          # how many are left
        vsetvli t0, zero, e32, m2, tu, mu
        vmv.v.i v8, 0                           # a sum for each place
next:   vsetvli t0, a2, e32, m2, tu, mu
        vle32.v v2, (a0)
        vle32.v v4, (a1)
        vmacc.vv v8, v2, v4
        slli    t1, t0, 2
        add     a0, a0, t1
        add     a1, a1, t1
        sub     a2, a2, t0
        bnez    a2, next
        vsetvli t0, zero, e32, m2, tu, mu
        vmv.s.x v2, zero
        vredsum.vs v2, v8, v2                   # the sum of all places
        vmv.x.s a0, v2
        li      a7, 93                          # exit
        ecall

        .data
left:   .word   1, 2, 3, 4, 5, 6, 7, 8, 9, 10
        .word   11, 12, 13, 14, 15, 16, 17, 18, 19, 20
right:  .word   1, 2, 3, 4, 5, 6, 7, 8, 9, 10
        .word   11, 12, 13, 14, 15, 16, 17, 18, 19, 20
