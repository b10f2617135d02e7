# Loads 256 numbers of 64 bits that stand so many bytes apart, 64 times over, and exits with how many were loaded, 16384. Each page of
# the area is touched before, so that every distance brings the same pages. `build` makes it for distances of 1 to 16 words.
        .text
_start: la      s0, area
        li      s1, 8                           # the distance in bytes, 128 at the most
        mv      a0, s0
        li      a1, 8                           # how many pages are left
        lui     a2, 1                           # 4096, the bytes of a page
touch:  ld      t0, 0(a0)
        add     a0, a0, a2
        addi    a1, a1, -1
        bnez    a1, touch

        li      s2, 64                          # how many times are left
        li      s3, 0                           # how many numbers were loaded
again:  mv      a0, s0
        li      a2, 256                         # how many numbers are left
next:   vsetvli t0, a2, e64, m8, ta, ma
        vlse64.v v8, (a0), s1
        mul     t1, t0, s1
        add     a0, a0, t1
        add     s3, s3, t0
        sub     a2, a2, t0
        bnez    a2, next
        addi    s2, s2, -1
        bnez    s2, again
        mv      a0, s3
        li      a7, 93                          # exit
        ecall

        .data
area:   .zero   32768
