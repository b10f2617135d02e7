"""The vector memory rows: their elements, accesses and effects."""

from flat import M64

WIDTHS = {0: 8, 5: 16, 6: 32, 7: 64}


def memory(m, s, w):
    load = w & 127 == 7
    vd, f3, r1, r2, vm, mop, nf = w >> 7 & 31, w >> 12 & 7, w >> 15 & 31, w >> 20 & 31, w >> 25 & 1, w >> 26 & 3, w >> 29
    if f3 not in WIDTHS or w >> 28 & 1:
        return False
    eew, fields, row = WIDTHS[f3], nf + 1, set()
    kind = {0: "unit", 1: "indexed", 2: "strided", 3: "indexed"}[mop]
    if mop == 0 and r2 != 0:
        kind = {8: "whole", 11: "mask", 16: "first only"}.get(r2)
    if kind is None or kind == "whole" and not (vm and nf in (0, 1, 3, 7) and (load or f3 == 0)):
        return False
    if kind == "mask" and not (vm and nf == 0 and f3 == 0) or kind == "first only" and not load:
        return False
    count, sources, width, emul = m.vl, [], eew, eew * m.lmul8 // m.sew if not m.vill else 0
    exact = emul * m.sew == eew * m.lmul8
    if kind == "whole":
        row, emul, count, fields, exact = {"whole"}, 8 * fields, fields * m.vlen // eew, 1, True
    elif kind == "mask":
        emul, count, exact = 8, (m.vl + 7) // 8, True
    elif kind == "indexed":
        sources, width, emul = [(r2, eew, emul)], m.sew, m.lmul8
        if load and nf:
            row = {"apart"}
    if not exact:
        return False
    group = max(1, emul // 8)
    if fields > 1 and (emul * fields > 64 or vd + fields * group > 32):
        return False
    dest = (vd, 1 if kind == "mask" else width, emul)
    sources_of_load = sources + ([(0, 1, 8)] if "apart" in row and not vm else [])
    lawful = m.lawful(row, dest, sources_of_load, vm, fields) if load else m.lawful(row, None, [dest] + sources, vm)
    if not lawful:
        return False
    file, base, size = bytes(m.v), m.x[r1], width // 8

    def address(i, f):
        if kind == "strided":
            place = i * m.x[r2]
        elif kind == "indexed":
            place = m.elem(r2, eew, i, file)
        else:
            place = i * fields * size
        return (base + place + f * size) & M64

    def active(i):
        return vm or m.bit(0, i, file)

    places = {i: [address(i, f) for f in range(fields)] for i in range(m.vstart, count) if active(i)}
    s.vector = True
    s.first_only = kind == "first only"
    s.want = "load" if load else "store"
    s.elements = [(i, [(a, size) for a in places.get(i, [])]) for i in range(m.vstart, count)]

    def element(k):
        for f, a in enumerate(places.get(k, [])):
            if load:
                m.put_elem(vd + f * group, width, k, m.read(a, size))
            else:
                m.write(a, size, m.elem(vd + f * group, width, k, file))

    s.element = element
    pc = m.pc

    def apply():
        m.vstart = 0
        m.go(pc + 4)

    s.apply = apply
    return True
