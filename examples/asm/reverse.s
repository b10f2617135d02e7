# Writes a text, reverses it where it stands, writes it again, and exits with 0. Both are done by functions without arguments.
        .text
_start: jal     ra, show
        jal     ra, reverse
        jal     ra, show
        li      a0, 0
        li      a7, 93          # exit
        ecall

# Exchanges the bytes at both ends, then those next to them, until the ends meet.
reverse:
        la      a3, text        # the first byte
        la      a4, behind      # the byte behind the last
next:   addi    a4, a4, -1
        bgeu    a3, a4, done
        lbu     t0, 0(a3)
        lbu     t1, 0(a4)
        sb      t1, 0(a3)
        sb      t0, 0(a4)
        addi    a3, a3, 1
        j       next
done:   ret

# Writes the text and the newline behind it.
show:   la      a1, text
        la      a2, behind
        sub     a2, a2, a1
        addi    a2, a2, 1
        li      a0, 1           # the report's descriptor
        li      a7, 64          # write
        ecall
        ret

        .data
text:   .ascii  "stressed"
behind: .ascii  "\n"
