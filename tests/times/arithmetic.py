"""The vector arithmetic rows: unit, handled words and results."""

from flat import divided, signed

# OPI rows by funct6: name, forms, unit
OPI = {0: ("add", "vxi", "A"), 2: ("sub", "vx", "A"), 3: ("rsub", "xi", "A"), 4: ("minu", "vx", "A"), 5: ("min", "vx", "A"),
       6: ("maxu", "vx", "A"), 7: ("max", "vx", "A"), 9: ("and", "vxi", "A"), 10: ("or", "vxi", "A"), 11: ("xor", "vxi", "A"),
       12: ("gather", "vxi", "P"), 14: ("slideup", "vxi", "P"), 15: ("slidedown", "xi", "P"), 16: ("adc", "vxi", "A"),
       17: ("madc", "vxi", "A"), 18: ("sbc", "vx", "A"), 19: ("msbc", "vx", "A"), 23: ("merge", "vxi", "A"),
       24: ("seq", "vxi", "A"), 25: ("sne", "vxi", "A"), 26: ("sltu", "vx", "A"), 27: ("slt", "vx", "A"),
       28: ("sleu", "vxi", "A"), 29: ("sle", "vxi", "A"), 30: ("sgtu", "xi", "A"), 31: ("sgt", "xi", "A"),
       32: ("saddu", "vxi", "A"), 33: ("sadd", "vxi", "A"), 34: ("ssubu", "vx", "A"), 35: ("ssub", "vx", "A"),
       37: ("sll", "vxi", "A"), 39: ("smul", "vxi", "M"), 40: ("srl", "vxi", "A"), 41: ("sra", "vxi", "A"),
       42: ("ssrl", "vxi", "A"), 43: ("ssra", "vxi", "A"), 44: ("nsrl", "vxi", "A"), 45: ("nsra", "vxi", "A"),
       46: ("nclipu", "vxi", "A"), 47: ("nclip", "vxi", "A"), 48: ("wredsumu", "v", "P"), 49: ("wredsum", "v", "P")}
OPM = {0: ("redsum", "v", "P"), 1: ("redand", "v", "P"), 2: ("redor", "v", "P"), 3: ("redxor", "v", "P"),
       4: ("redminu", "v", "P"), 5: ("redmin", "v", "P"), 6: ("redmaxu", "v", "P"), 7: ("redmax", "v", "P"),
       8: ("aaddu", "vx", "A"), 9: ("aadd", "vx", "A"), 10: ("asubu", "vx", "A"), 11: ("asub", "vx", "A"),
       14: ("slide1up", "x", "P"), 15: ("slide1down", "x", "P"), 16: ("to x", "vx", "P"), 18: ("ext", "v", "A"),
       20: ("of mask", "v", "P"), 23: ("compress", "v", "P"), 24: ("mandn", "v", "A"), 25: ("mand", "v", "A"),
       26: ("mor", "v", "A"), 27: ("mxor", "v", "A"), 28: ("morn", "v", "A"), 29: ("mnand", "v", "A"), 30: ("mnor", "v", "A"),
       31: ("mxnor", "v", "A"), 32: ("divu", "vx", "D"), 33: ("div", "vx", "D"), 34: ("remu", "vx", "D"), 35: ("rem", "vx", "D"),
       36: ("mulhu", "vx", "M"), 37: ("mul", "vx", "M"), 38: ("mulhsu", "vx", "M"), 39: ("mulh", "vx", "M"),
       41: ("madd", "vx", "M"), 43: ("nmsub", "vx", "M"), 45: ("macc", "vx", "M"), 47: ("nmsac", "vx", "M"),
       48: ("waddu", "vx", "A"), 49: ("wadd", "vx", "A"), 50: ("wsubu", "vx", "A"), 51: ("wsub", "vx", "A"),
       52: ("waddu.w", "vx", "A"), 53: ("wadd.w", "vx", "A"), 54: ("wsubu.w", "vx", "A"), 55: ("wsub.w", "vx", "A"),
       56: ("wmulu", "vx", "M"), 58: ("wmulsu", "vx", "M"), 59: ("wmul", "vx", "M"), 60: ("wmaccu", "vx", "M"),
       61: ("wmacc", "vx", "M"), 62: ("wmaccus", "x", "M"), 63: ("wmaccsu", "vx", "M")}
UNSIGNED_NUMBER = {"sll", "srl", "sra", "ssrl", "ssra", "nsrl", "nsra", "nclipu", "nclip", "gather", "slideup", "slidedown"}
NARROW = {"nsrl", "nsra", "nclipu", "nclip"}
COMPARES = {"seq", "sne", "sltu", "slt", "sleu", "sle", "sgtu", "sgt"}
UNMASKED = {"adc", "madc", "sbc", "msbc", "merge"}


def rounded(v, d, mode):
    if d == 0:
        return v
    half, odd = v >> d - 1 & 1, v >> d & 1
    below = v & ((1 << d - 1) - 1)
    r = (half, half & (1 if below or odd else 0), 0, (1 - odd) & (1 if half or below else 0))[mode]
    return (v >> d) + r


def clipped(v, bits, is_signed):
    low, high = (-(1 << bits - 1), (1 << bits - 1) - 1) if is_signed else (0, (1 << bits) - 1)
    c = min(max(v, low), high)
    return c, c != v


def result(name, a, b, d, bit, S, mode):
    """element result of a row of one width, a narrowing row (a has 2S bits) or a widening one; with the truth of saturation"""
    sa, sb = signed(a, S), signed(b, S)
    by, by2 = b & (S - 1), b & (2 * S - 1)
    sat = {"saddu": (a + b, False), "sadd": (sa + sb, True), "ssubu": (a - b, False), "ssub": (sa - sb, True)}
    if name in sat:
        return clipped(sat[name][0], S, sat[name][1])
    if name == "smul":
        return clipped(rounded(sa * sb, S - 1, mode), S, True)
    if name == "nclipu":
        return clipped(rounded(a, by2, mode), S, False)
    if name == "nclip":
        return clipped(rounded(signed(a, 2 * S), by2, mode), S, True)
    if name in ("divu", "div", "remu", "rem"):
        return divided(a, b, sa, sb, name in ("div", "rem"), name[0] == "r"), False
    wide_a = a if name.endswith("u.w") else signed(a, 2 * S)
    table = {
        "add": lambda: a + b, "sub": lambda: a - b, "rsub": lambda: b - a, "minu": lambda: min(a, b), "min": lambda: min(sa, sb),
        "maxu": lambda: max(a, b), "max": lambda: max(sa, sb), "and": lambda: a & b, "or": lambda: a | b, "xor": lambda: a ^ b,
        "adc": lambda: a + b + bit, "sbc": lambda: a - b - bit, "sll": lambda: a << by, "srl": lambda: a >> by,
        "sra": lambda: sa >> by, "ssrl": lambda: rounded(a, by, mode), "ssra": lambda: rounded(sa, by, mode),
        "nsrl": lambda: a >> by2, "nsra": lambda: signed(a, 2 * S) >> by2, "aaddu": lambda: rounded(a + b, 1, mode),
        "aadd": lambda: rounded(sa + sb, 1, mode), "asubu": lambda: rounded(a - b, 1, mode),
        "asub": lambda: rounded(sa - sb, 1, mode), "mul": lambda: a * b, "mulhu": lambda: a * b >> S, "mulh": lambda: sa * sb >> S,
        "mulhsu": lambda: sa * b >> S, "madd": lambda: b * d + a, "nmsub": lambda: a - b * d, "macc": lambda: b * a + d,
        "nmsac": lambda: d - b * a, "waddu": lambda: a + b, "wadd": lambda: sa + sb, "wsubu": lambda: a - b,
        "wsub": lambda: sa - sb, "waddu.w": lambda: wide_a + b, "wadd.w": lambda: wide_a + sb, "wsubu.w": lambda: wide_a - b,
        "wsub.w": lambda: wide_a - sb, "wmulu": lambda: a * b, "wmulsu": lambda: sa * b, "wmul": lambda: sa * sb,
        "wmaccu": lambda: b * a + d, "wmacc": lambda: sb * sa + d, "wmaccus": lambda: b * sa + d, "wmaccsu": lambda: sb * a + d}
    return table[name](), False


def compared(name, a, b, bit, S):
    sa, sb = signed(a, S), signed(b, S)
    return {"seq": a == b, "sne": a != b, "sltu": a < b, "slt": sa < sb, "sleu": a <= b, "sle": sa <= sb, "sgtu": a > b,
            "sgt": sa > sb, "madc": a + b + bit >> S, "msbc": a - b - bit < 0}[name]


def reduced(name, x, a, S):
    sx, sa = signed(x, S), signed(a, S)
    return {"sum": x + a, "and": x & a, "or": x | a, "xor": x ^ a, "minu": min(x, a), "min": min(sx, sa), "maxu": max(x, a),
            "max": max(sx, sa)}[name] & ((1 << S) - 1)


def words_of(first, count, width):
    """the 64-bit words that hold the elements from first to count - 1; width 1 for a mask"""
    return list(range(first * width // 64, ((count - 1) * width) // 64 + 1)) if first < count else []


class Row:
    """the fields of a word of opcode 57, and what the state gives for them"""

    def __init__(self, m, w):
        self.f6, self.vm, self.vs2, self.vs1, self.vd = w >> 26, w >> 25 & 1, w >> 20 & 31, w >> 15 & 31, w >> 7 & 31
        self.form = {0: "v", 2: "v", 3: "i", 4: "x", 6: "x"}.get(w >> 12 & 7)
        table = OPI if w >> 12 & 7 in (0, 3, 4) else OPM
        self.name, forms, self.unit = table.get(self.f6, (None, "", None)) if self.form else (None, "", None)
        if self.form is None or self.form not in forms:
            self.name = None
        self.file = bytes(m.v)
        self.S, self.e = m.sew, m.lmul8
        self.x = m.x[self.vs1]
        self.number = self.vs1 if self.name in UNSIGNED_NUMBER else signed(self.vs1, 5)


def arithmetic(m, s, w):
    r = Row(m, w)
    special = {"to x": to_x, "ext": extension, "of mask": of_mask, "merge": merge, "compress": compress, "gather": gather,
               "slideup": slide, "slidedown": slide, "slide1up": slide, "slide1down": slide}
    s.vector = True
    s.unit = r.unit
    if r.name is None:
        return False
    if r.name == "smul" and r.form == "i":
        return whole_move(m, s, r)
    if r.name == "slideup" and r.form == "v":
        return gather(m, s, r)
    if r.name in special:
        return special[r.name](m, s, r)
    if r.name.startswith("m") and 24 <= r.f6 <= 31:
        return mask_logic(m, s, r)
    if "red" in r.name:
        return reduction(m, s, r)
    return plain(m, s, r)


def ends(m, s, change=lambda: None):
    """what completes the instruction"""
    def apply():
        change()
        m.vstart = 0
        m.go(m.pc + 4)
    s.apply = apply
    return True


def actives(m, r):
    return [i for i in range(m.vstart, m.vl) if r.vm or m.bit(0, i, r.file)]


def operand(m, r, i, width):
    if r.form == "v":
        return m.elem(r.vs1, width, i, r.file)
    return (r.x if r.form == "x" else r.number) & ((1 << width) - 1)


def plain(m, s, r):
    """rows whose element i is made of the elements i"""
    S, e, name = r.S, r.e, r.name
    wide = name[0] == "w"
    of_wide = name in NARROW or name.endswith(".w")
    masks = name in COMPARES or name in ("madc", "msbc")
    if name in ("adc", "sbc") and r.vm:
        return False
    free = {"free of v0"} if masks else set()
    if name in ("mulh", "mulhu", "mulhsu", "smul"):
        free.add("below 64")
    dest = (r.vd, 1, 8) if masks else (r.vd, 2 * S, 2 * e) if wide else (r.vd, S, e)
    sources = [(r.vs2, 2 * S, 2 * e) if of_wide else (r.vs2, S, e)] + ([(r.vs1, S, e)] if r.form == "v" else [])
    if not m.lawful(free, dest, sources, r.vm):
        return False
    s.words = words_of(m.vstart, m.vl, dest[1])
    todo = range(m.vstart, m.vl) if name in UNMASKED else actives(m, r)

    def change():
        for i in todo:
            a, b = m.elem(r.vs2, sources[0][1], i, r.file), operand(m, r, i, S)
            bit = m.bit(0, i, r.file) if name in UNMASKED and not r.vm else 0
            if masks:
                m.put_bit(r.vd, i, compared(name, a, b, bit, S))
                continue
            d = m.elem(r.vd, dest[1], i, r.file)
            value, sat = result(name, a, b, d, bit, S, m.vxrm)
            m.put_elem(r.vd, dest[1], i, value)
            m.vxsat |= sat

    return ends(m, s, change)


def merge(m, s, r):
    if r.vm and r.vs2:
        return False
    sources = ([] if r.vm else [(r.vs2, r.S, r.e)]) + ([(r.vs1, r.S, r.e)] if r.form == "v" else [])
    if not m.lawful(set(), (r.vd, r.S, r.e), sources, r.vm):
        return False
    s.words = words_of(m.vstart, m.vl, r.S)

    def change():
        for i in range(m.vstart, m.vl):
            taken = r.vm or m.bit(0, i, r.file)
            m.put_elem(r.vd, r.S, i, operand(m, r, i, r.S) if taken else m.elem(r.vs2, r.S, i, r.file))

    return ends(m, s, change)


def whole_move(m, s, r):
    if not r.vm or r.vs1 not in (0, 1, 3, 7):
        return False
    n, width = r.vs1 + 1, 8 if m.vill else r.S
    s.unit = "A"
    if not m.lawful({"whole", "free of overlap"}, (r.vd, width, 8 * n), [(r.vs2, width, 8 * n)], 1):
        return False
    count = n * m.vlen // width
    s.words = words_of(m.vstart, count, width)

    def change():
        for i in range(m.vstart, count):
            m.put_elem(r.vd, width, i, m.elem(r.vs2, width, i, r.file))

    return ends(m, s, change)


def extension(m, s, r):
    factor = {2: 8, 3: 8, 4: 4, 5: 4, 6: 2, 7: 2}.get(r.vs1)
    if factor is None:
        return False
    width, emul = r.S // factor, r.e // factor
    if width < 8 or emul * factor != r.e or not m.lawful(set(), (r.vd, r.S, r.e), [(r.vs2, width, emul)], r.vm):
        return False
    s.words = words_of(m.vstart, m.vl, r.S)

    def change():
        for i in actives(m, r):
            a = m.elem(r.vs2, width, i, r.file)
            m.put_elem(r.vd, r.S, i, signed(a, width) if r.vs1 & 1 else a)

    return ends(m, s, change)


def mask_logic(m, s, r):
    if not r.vm or not m.lawful(set(), (r.vd, 1, 8), [(r.vs2, 1, 8), (r.vs1, 1, 8)], 1):
        return False
    s.words = words_of(m.vstart, m.vl, 1)

    def change():
        for i in range(m.vstart, m.vl):
            a, b = m.bit(r.vs2, i, r.file), m.bit(r.vs1, i, r.file)
            m.put_bit(r.vd, i, (a & (1 - b), a & b, a | b, a ^ b, a | (1 - b), 1 - (a & b), 1 - (a | b), 1 - (a ^ b))[r.f6 - 24])

    return ends(m, s, change)


def reduction(m, s, r):
    S = 2 * r.S if r.name[0] == "w" else r.S
    free = {"free of v0", "free of overlap", "from 0"}
    if not m.lawful(free, (r.vd, S, 8), [(r.vs2, r.S, r.e), (r.vs1, S, 8)], r.vm):
        return False
    s.words = words_of(m.vstart, m.vl, r.S)

    def change():
        if m.vl == 0:
            return
        total = m.elem(r.vs1, S, 0, r.file)
        for i in actives(m, r):
            a = m.elem(r.vs2, r.S, i, r.file)
            a = signed(a, r.S) & ((1 << S) - 1) if r.name == "wredsum" else a
            total = reduced(r.name.split("red")[1].rstrip("u" if r.name[0] == "w" else ""), total, a, S)
        m.put_elem(r.vd, S, 0, total)

    return ends(m, s, change)


def to_x(m, s, r):
    """vmv.x.s, vcpop.m, vfirst.m and vmv.s.x"""
    if r.form == "x":
        if not r.vm or r.vs2 or not m.lawful({"free of overlap"}, (r.vd, r.S, 8), [], 1):
            return False
        s.words = [0] if m.vstart < m.vl else []
        return ends(m, s, lambda: m.put_elem(r.vd, r.S, 0, r.x) if m.vstart < m.vl else None)
    if r.vs1 == 0:
        if not r.vm or not m.lawful(set(), None, [(r.vs2, r.S, 8)], 1):
            return False
        s.words = [0]
        return ends(m, s, lambda: m.put(r.vd, signed(m.elem(r.vs2, r.S, 0, r.file), r.S)))
    if r.vs1 not in (16, 17) or not m.lawful({"from 0"}, None, [(r.vs2, 1, 8)], r.vm):
        return False
    s.words = words_of(m.vstart, m.vl, 1)
    at = [i for i in actives(m, r) if m.bit(r.vs2, i, r.file)]
    return ends(m, s, lambda: m.put(r.vd, len(at) if r.vs1 == 16 else at[0] if at else -1))


def of_mask(m, s, r):
    """vmsbf, vmsof, vmsif, viota and vid"""
    if r.vs1 == 17:
        s.unit = "A"
        if r.vs2 or not m.lawful(set(), (r.vd, r.S, r.e), [], r.vm):
            return False
        s.words = words_of(m.vstart, m.vl, r.S)
        return ends(m, s, lambda: [m.put_elem(r.vd, r.S, i, i) for i in actives(m, r)])
    if r.vs1 not in (1, 2, 3, 16):
        return False
    dest = (r.vd, r.S, r.e) if r.vs1 == 16 else (r.vd, 1, 8)
    if not m.lawful({"apart", "from 0"}, dest, [(r.vs2, 1, 8)] + ([] if r.vm else [(0, 1, 8)]), r.vm):
        return False
    s.words = words_of(m.vstart, m.vl, dest[1])

    def change():
        before = 0
        for i in actives(m, r):
            own = m.bit(r.vs2, i, r.file)
            if r.vs1 == 16:
                m.put_elem(r.vd, r.S, i, before)
            else:
                m.put_bit(r.vd, i, before == 0 and (not own, own, True)[r.vs1 - 1])
            before += own

    return ends(m, s, change)


def compress(m, s, r):
    if not r.vm or not m.lawful({"apart", "from 0"}, (r.vd, r.S, r.e), [(r.vs2, r.S, r.e), (r.vs1, 1, 8)], 1):
        return False
    s.words = words_of(m.vstart, m.vl, r.S)

    def change():
        for place, i in enumerate(i for i in range(m.vl) if m.bit(r.vs1, i, r.file)):
            m.put_elem(r.vd, r.S, place, m.elem(r.vs2, r.S, i, r.file))

    return ends(m, s, change)


def gather(m, s, r):
    most, sixteen = r.e * m.vlen // 8 // r.S, r.name == "slideup"
    width = 16 if sixteen else r.S
    emul = r.e * 16 // r.S if sixteen else r.e
    sources = [(r.vs2, r.S, r.e)] + ([(r.vs1, width, emul)] if r.form == "v" else []) + ([] if r.vm else [(0, 1, 8)])
    if not m.lawful({"apart"}, (r.vd, r.S, r.e), sources, r.vm):
        return False
    s.words = words_of(m.vstart, m.vl, r.S)

    def change():
        for i in actives(m, r):
            b = m.elem(r.vs1, width, i, r.file) if r.form == "v" else r.x if r.form == "x" else r.number
            m.put_elem(r.vd, r.S, i, m.elem(r.vs2, r.S, b, r.file) if b < most else 0)

    return ends(m, s, change)


def slide(m, s, r):
    most, one, up = r.e * m.vlen // 8 // r.S, "1" in r.name, "up" in r.name
    rules = {"apart"} if up else set()
    sources = [(r.vs2, r.S, r.e)] + ([(0, 1, 8)] if up and not r.vm else [])
    if not m.lawful(rules, (r.vd, r.S, r.e), sources, r.vm):
        return False
    s.words = words_of(m.vstart, m.vl, r.S)
    n = 1 if one else r.x if r.form == "x" else r.number

    def change():
        for i in actives(m, r):
            if one and i == (0 if up else m.vl - 1):
                value = r.x
            elif up:
                if i < n:
                    continue
                value = m.elem(r.vs2, r.S, i - n, r.file)
            else:
                value = m.elem(r.vs2, r.S, i + n, r.file) if i + n < most else 0
            m.put_elem(r.vd, r.S, i, value)

    return ends(m, s, change)
