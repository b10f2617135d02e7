# Counts how often each of 4 numbers comes among 64: each element of a vector counts in a row of its own, by indexed loads and stores, and the rows are
# added at the end. It exits with how often the number 3 comes, 16.
        .text
_start: la      s0, values
        mv      t0, s0
        li      t1, 0
fill:   mul     t2, t1, t1
        add     t2, t2, t1
        srli    t2, t2, 1
        andi    t2, t2, 3
        sw      t2, 0(t0)
        addi    t0, t0, 4
        addi    t1, t1, 1
        slti    t2, t1, 64
        bnez    t2, fill

        la      s1, rows
        li      a2, 64                          # how many are left
next:   vsetvli t0, a2, e32, m1, ta, ma
        vle32.v v8, (s0)
        vsll.vi v8, v8, 2                       # its place in a row, in bytes
        vid.v   v9
        vsll.vi v9, v9, 4                       # the row of the element
        vadd.vv v8, v8, v9
        vluxei32.v v10, (s1), v8
        vadd.vi v10, v10, 1
        vsuxei32.v v10, (s1), v8
        slli    t1, t0, 2
        add     s0, s0, t1
        sub     a2, a2, t0
        bnez    a2, next

        li      t0, 16
        vsetvli t0, zero, e32, m1, ta, ma       # as many rows as there were elements
        li      t1, 16
        addi    s1, s1, 12                      # the count of 3 in the first row
        vmv.s.x v9, zero
        vlse32.v v8, (s1), t1
        vredsum.vs v9, v8, v9
        vmv.x.s a0, v9
        li      a7, 93                          # exit
        ecall

        .data
values: .zero   256
rows:   .zero   1024
