# Finds how long a text is whose last byte is the last one that is mapped, by loads of which only the first byte may fault, and exits with that, 199.
        .text
_start: li      s0, 1
        slli    s0, s0, 38                      # where the stack ends
        addi    s0, s0, -200
        mv      t0, s0
        li      t1, 199
        li      t2, 97
fill:   sb      t2, 0(t0)
        addi    t0, t0, 1
        addi    t1, t1, -1
        bnez    t1, fill
        sb      zero, 0(t0)

        mv      a0, s0
next:   vsetvli t0, zero, e8, m8, ta, ma
        vle8ff.v v8, (a0)                       # vl is what could be loaded
        vmseq.vi v0, v8, 0
        vfirst.m t1, v0
        csrr    t0, vl
        bge     t1, zero, found
        add     a0, a0, t0
        j       next
found:  add     a0, a0, t1
        sub     a0, a0, s0
        li      a7, 93                          # exit
        ecall
