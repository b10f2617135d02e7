"""The values of programs: a flat machine of one process, made from the rules of the instruction rows. `Machine.next` looks at the
next instruction and tells what it does in a `Step`, which the equations read; the methods of the step change the state."""

M64 = (1 << 64) - 1
STACK = 0x3FFFFF0
CAUSES = {"fetch": 12, "load": 13, "store": 15}


def signed(value, bits):
    value &= (1 << bits) - 1
    return value - (1 << bits) if value >> (bits - 1) else value


def canonical(address):
    return (address >> 38) in (0, (1 << 26) - 1)


class Step:
    """What the next instruction is for the equations, and its effect.

    fault: (cause, tval) of a fault without a batch; service: an ecall; serial; jump: the next fetch comes a cycle later;
    cycles: of a scalar row, from its issue to its end; unit and words: the handled words of a vector arithmetic row; elements:
    of a memory row, pairs of an element's number and its accesses (address, bytes)."""

    def __init__(self):
        self.fault = None
        self.service = self.serial = self.jump = self.first_only = self.vector = False
        self.cycles = 1
        self.unit = self.words = self.elements = self.want = None
        self.apply = lambda: None
        self.element = lambda k: None


class Machine:
    def __init__(self, image, vlen):
        self.x = [0] * 32
        self.x[2] = 0x3FFFFFFF00
        self.pc = 0x10000
        self.vlen = vlen
        self.v = bytearray(4 * vlen)
        self.vl = self.vstart = self.vxsat = self.vxrm = 0
        self.vtype = 1 << 63
        self.pages, self.perm = {}, {}
        for place in range(0, len(image), 4096):
            self.pages[0x10 + place // 4096] = bytearray(image[place:place + 4096].ljust(4096, b"\0"))
            self.perm[0x10 + place // 4096] = "rx"
        for page in range(STACK, STACK + 16):
            self.pages[page] = bytearray(4096)
            self.perm[page] = "rw"
        self.output = b""
        self.count = 0

    # memory

    def granted(self, address, want):
        letter = {"fetch": "x", "load": "r", "store": "w"}[want]
        return canonical(address) and letter in self.perm.get((address & M64) >> 12, "")

    def read(self, address, size):
        at = address & 4095
        return int.from_bytes(self.pages[address >> 12][at:at + size], "little")

    def write(self, address, size, value):
        at = address & 4095
        self.pages[address >> 12][at:at + size] = (value & ((1 << 8 * size) - 1)).to_bytes(size, "little")

    def put(self, rd, value):
        if rd:
            self.x[rd] = value & M64

    # vector registers

    def elem(self, r, width, i, file=None):
        at = r * self.vlen // 8 + i * width // 8
        return int.from_bytes((file or self.v)[at:at + width // 8], "little")

    def put_elem(self, r, width, i, value):
        at = r * self.vlen // 8 + i * width // 8
        self.v[at:at + width // 8] = (value & ((1 << width) - 1)).to_bytes(width // 8, "little")

    def bit(self, r, i, file=None):
        return (file or self.v)[r * self.vlen // 8 + i // 8] >> (i % 8) & 1

    def put_bit(self, r, i, value):
        at = r * self.vlen // 8 + i // 8
        self.v[at] = self.v[at] & ~(1 << i % 8) | (1 if value else 0) << i % 8

    @property
    def vill(self):
        return self.vtype >> 63

    @property
    def sew(self):
        return 8 << (self.vtype >> 3 & 7)

    @property
    def lmul8(self):
        """LMUL in eighths"""
        m = self.vtype & 7
        return 8 << m if m < 4 else 8 >> (8 - m)

    def set_vl(self, avl, vtype):
        kept = avl == "keep"
        sew, m = 8 << (vtype >> 3 & 7), vtype & 7
        lmul8 = 8 << m if m < 4 else 8 >> (8 - m)
        bad = vtype >> 8 or m == 4 or sew > 64 or lmul8 < 8 and sew * 8 > 64 * lmul8
        bad = bad or kept and (self.vill or self.sew * lmul8 != sew * self.lmul8)
        self.vstart = 0
        if bad:
            self.vtype, self.vl = 1 << 63, 0
            return
        most = lmul8 * self.vlen // 8 // sew
        self.vtype = vtype
        if not kept:
            self.vl = most if avl == "max" else min(avl, most)

    # one instruction

    def next(self):
        """the step at pc, which is an executable one"""
        step = Step()
        w = self.read(self.pc, 4)
        op = w & 127
        row = {0x57: self.vector, 0x07: self.vector_memory, 0x27: self.vector_memory}.get(op, self.scalar)
        if not row(step, w):
            step.fault = (2, w)
        if step.fault:
            step.serial = True
        return step

    def scalar(self, s, w):
        op, rd, f3, r1, r2, f7 = w & 127, w >> 7 & 31, w >> 12 & 7, w >> 15 & 31, w >> 20 & 31, w >> 25
        a, b, imm, pc = self.x[r1], self.x[r2], signed(w >> 20, 12), self.pc

        def gives(value):
            s.apply = lambda: (self.put(rd, value), self.go(pc + 4))
            return True

        if op == 0x37:
            return gives(signed(w & 0xFFFFF000, 32))
        if op == 0x17:
            return gives(pc + signed(w & 0xFFFFF000, 32))
        if op == 0x6F:
            offset = signed((w >> 31) << 20 | (w >> 12 & 255) << 12 | (w >> 20 & 1) << 11 | (w >> 21 & 1023) << 1, 21)
            return self.jump(s, rd, (pc + offset) & M64)
        if op == 0x67 and f3 == 0:
            return self.jump(s, rd, (a + imm) & M64 & ~1)
        if op == 0x63 and f3 not in (2, 3):
            offset = signed((w >> 31) << 12 | (w >> 7 & 1) << 11 | (w >> 25 & 63) << 5 | (w >> 8 & 15) << 1, 13)
            left, right = (a, b) if f3 & 2 else (signed(a, 64), signed(b, 64))
            taken = (left < right if f3 & 4 else left == right) != bool(f3 & 1)
            return self.jump(s, 0, (pc + offset if taken else pc + 4) & M64)
        if op == 0x03 and f3 != 7:
            return self.scalar_memory(s, "load", rd, (a + imm) & M64, 1 << (f3 & 3), f3 < 4)
        if op == 0x23 and f3 < 4:
            return self.scalar_memory(s, "store", r2, (a + signed(f7 << 5 | rd, 12)) & M64, 1 << f3, False)
        if op == 0x13:
            amount = w >> 20 & 63
            if f3 == 1 or f3 == 5:
                if w >> 26 not in ((0,) if f3 == 1 else (0, 16)):
                    return False
                return gives(a << amount if f3 == 1 else (signed(a, 64) if w >> 30 & 1 else a) >> amount)
            c = imm & M64
            return gives({0: a + imm, 2: signed(a, 64) < imm, 3: a < c, 4: a ^ c, 6: a | c, 7: a & c}[f3])
        if op == 0x1B:
            if f3 == 0:
                return gives(signed(a + imm, 32))
            if (f3, f7) in ((1, 0), (5, 0), (5, 32)):
                return gives(signed(self.shift(f3, f7, a, r2, 32), 32))
            return False
        if op in (0x33, 0x3B):
            bits = 64 if op == 0x33 else 32
            if f7 == 1 and (bits == 64 or f3 in (0, 4, 5, 6, 7)):
                s.cycles = 20 if f3 >= 4 else 3
                return gives(signed(self.multiply(f3, a, b, bits), bits))
            if (f3, f7) in ((0, 0), (0, 32)):
                return gives(signed(a - b if f7 else a + b, bits))
            if (f3, f7) in ((1, 0), (5, 0), (5, 32)):
                return gives(signed(self.shift(f3, f7, a, b & (bits - 1), bits), bits))
            if bits == 64 and f7 == 0 and f3 in (2, 3, 4, 6, 7):
                return gives({2: signed(a, 64) < signed(b, 64), 3: a < b, 4: a ^ b, 6: a | b, 7: a & b}[f3])
            return False
        if op == 0x0F and f3 == 0:
            s.serial = True
            s.apply = lambda: self.go(pc + 4)
            return True
        if w == 0x73:
            s.service = s.serial = True
            return True
        if w == 0x100073:
            s.fault = (3, 0)
            return True
        if op == 0x73 and f3 not in (0, 4):
            return self.control(s, w >> 20, rd, f3, r1, r1 if f3 & 4 else a)
        return False

    def go(self, pc):
        self.pc = pc & M64
        self.count += 1

    def jump(self, s, rd, target):
        s.jump = True
        if target % 4:
            s.fault = (0, target)
        back = self.pc + 4
        s.apply = lambda: (self.put(rd, back), self.go(target))
        return True

    def shift(self, f3, f7, a, amount, bits):
        low = a & ((1 << bits) - 1)
        return low << amount if f3 == 1 else (signed(a, bits) if f7 else low) >> amount

    def multiply(self, f3, a, b, bits):
        ua, ub = a & ((1 << bits) - 1), b & ((1 << bits) - 1)
        sa, sb = signed(a, bits), signed(b, bits)
        if f3 < 4:
            return (ua * ub, sa * sb >> bits, sa * ub >> bits, ua * ub >> bits)[f3]
        return divided(ua, ub, sa, sb, f3 & 1 == 0, f3 >= 6)

    def scalar_memory(self, s, want, r, address, size, signs):
        s.want = want
        s.elements = [(0, [(address, size)])]
        value = self.x[r]

        def element(k):
            if want == "store":
                self.write(address, size, value)
            else:
                read = self.read(address, size)
                self.put(r, signed(read, 8 * size) if signs else read)

        s.element = element
        pc = self.pc
        s.apply = lambda: self.go(pc + 4)
        return True

    def control(self, s, number, rd, f3, field, operand):
        old = {8: self.vstart, 9: self.vxsat, 10: self.vxrm, 15: self.vxrm << 1 | self.vxsat, 0xC20: self.vl,
               0xC21: self.vtype, 0xC22: self.vlen // 8}.get(number)
        writes = f3 & 3 == 1 or field != 0
        if old is None or writes and number >= 0xC00:
            return False
        s.serial = True
        new = (operand, old | operand, old & ~operand)[(f3 & 3) - 1]

        def apply():
            self.put(rd, old)
            if writes and number == 8:
                self.vstart = new & (self.vlen - 1)
            if writes and number in (9, 15):
                self.vxsat = new & 1
            if writes and number in (10, 15):
                self.vxrm = (new >> 1 if number == 15 else new) & 3
            self.go(self.pc + 4)

        s.apply = apply
        return True

    # vector rows stand in modules of their own

    def vector(self, s, w):
        from arithmetic import arithmetic
        if w >> 12 & 7 == 7:
            return self.configure(s, w)
        return arithmetic(self, s, w)

    def vector_memory(self, s, w):
        from accesses import memory
        return memory(self, s, w)

    def configure(self, s, w):
        rd, r1 = w >> 7 & 31, w >> 15 & 31
        by_register = "keep" if rd == r1 == 0 else "max" if r1 == 0 else self.x[r1]
        if w >> 31 == 0:
            avl, vtype = by_register, w >> 20 & 2047
        elif w >> 30 == 3:
            avl, vtype = r1, w >> 20 & 1023
        elif w >> 25 == 64:
            avl, vtype = by_register, self.x[w >> 20 & 31]
        else:
            return False
        s.apply = lambda: (self.set_vl(avl, vtype), self.put(rd, self.vl), self.go(self.pc + 4))
        return True

    def lawful(self, row, dest, sources, vm, at=None):
        """whether none of the rules makes the row illegal; dest and each source are (register, EEW, EMUL in eighths), EEW 1 for a
        mask; row is the set of words that tell which rules it is free of"""
        if self.vill and "whole" not in row:
            return False
        for r, eew, emul in ([dest] if dest else []) + sources:
            if eew != 1 and not 8 <= eew <= 64 or not 1 <= emul <= 64 or emul > 8 and r % (emul // 8):
                return False
        if dest:
            first, eew, emul = dest
            own = set(range(first, first + max(1, emul // 8) * at if at else first + max(1, emul // 8)))
            if not vm and 0 in own and "free of v0" not in row:
                return False
            for r, width, size in sources:
                group = set(range(r, r + max(1, size // 8)))
                if not own & group:
                    continue
                if "apart" in row:
                    return False
                if "free of overlap" in row or width == eew:
                    continue
                if eew < width and first != r or eew > width and (size < 8 or max(group) != max(own)):
                    return False
        if "from 0" in row and self.vstart:
            return False
        return not ("below 64" in row and self.sew == 64)


def divided(ua, ub, sa, sb, is_signed, remainder):
    """quotient or remainder; by zero all ones, or the dividend; at signed overflow the dividend, or 0"""
    a, b = (sa, sb) if is_signed else (ua, ub)
    if b == 0:
        return a if remainder else -1
    quotient = abs(a) // abs(b) * (1 if (a < 0) == (b < 0) else -1)
    return a - b * quotient if remainder else quotient
