# Multiplies two matrices of 8 rows and columns of 32 bits, the left one i + j and the right one i * j + 1, a row of the product at a time, and
# exits with the last number of the product.
        .text
_start: la      s0, left
        la      s1, right
        li      t0, 0                           # i
fill:   li      t1, 0                           # j
cell:   add     t2, t0, t1
        sw      t2, 0(s0)
        mul     t2, t0, t1
        addi    t2, t2, 1
        sw      t2, 0(s1)
        addi    s0, s0, 4
        addi    s1, s1, 4
        addi    t1, t1, 1
        slti    t2, t1, 8
        bnez    t2, cell
        addi    t0, t0, 1
        slti    t2, t0, 8
        bnez    t2, fill

        la      s0, left
        la      s2, product
        li      s3, 8                           # how many rows are left
row:    la      s1, right
        li      s4, 0                           # the row's first column that is left
part:   li      t0, 8
        sub     t0, t0, s4
        vsetvli t0, t0, e32, m1, ta, ma
        vmv.v.i v8, 0
        slli    t1, s4, 2
        add     t2, s1, t1                      # the part's place in a row of the right
        mv      t3, s0
        li      t4, 8
term:   lw      t5, 0(t3)
        vle32.v v9, (t2)
        vmacc.vx v8, t5, v9
        addi    t3, t3, 4
        addi    t2, t2, 32
        addi    t4, t4, -1
        bnez    t4, term
        add     t2, s2, t1
        vse32.v v8, (t2)
        add     s4, s4, t0
        slti    t0, s4, 8
        bnez    t0, part
        addi    s0, s0, 32
        addi    s2, s2, 32
        addi    s3, s3, -1
        bnez    s3, row
        lw      a0, -4(s2)
        li      a7, 93                          # exit
        ecall

        .data
left:   .zero   256
right:  .zero   256
product: .zero  256
