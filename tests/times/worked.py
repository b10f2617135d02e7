"""Compares the model with the worked examples of docs/TIMES.md at a window of one instruction: prints each difference."""

import sys

from equations import Episode, Tables
from flat import Machine


def little(words):
    return b"".join(w.to_bytes(4, "little") for w in words)


class Example:
    """an episode over a program on page 16, other pages by number (permissions, first bytes), registers and a vector state"""

    def __init__(self, words, options, pages=(), c0=0, until=1000, x=(), vector=None):
        m = Machine(little(words), 128)
        m.pages = {16: m.pages[16]}
        m.perm = {16: "rx"}
        for number, perm, data in pages:
            m.pages[number], m.perm[number] = bytearray(data.ljust(4096, b"\0")), perm
        for r, value in zip((10, 11, 12), x):
            m.x[r] = value % (1 << 64)
        m.x[2] = 0
        if vector:
            m.vl, m.vtype = vector[:2]
            for w, value in vector[2].items():
                m.v[8 * w:8 * w + 8] = value.to_bytes(8, "little")
        self.m, self.tables = m, Tables(m)
        lanes, banks, long = options
        self.e = Episode(m, self.tables, {"lanes": lanes, "banks": banks, "bank-time": 4, "long batches": long}, c0, until)
        self.e.run()

    def issues(self):
        return [i.t for i in self.e.instructions]

    def serves(self):
        of = {}
        for a in self.e.accesses:
            of.setdefault(a.batch.instruction, []).append(a.serve)
        return list(of.values())

    def starts(self):
        of = {}
        for b in self.e.batches:
            of.setdefault(b.instruction, []).append(b.st)
        return list(of.values())

    def ends(self):
        return [self.e.E, self.e.Z, self.m.count]


def check(name, own, wanted):
    print(f"{'same' if own == wanted else 'OTHER'}  {name}: {own}" + ("" if own == wanted else f", wanted {wanted}"))
    return own == wanted


ONE = (1, 8, False)
DATA = ((17, "rw", b""),)
EIGHT = (8, 0x1A, {})
HI = [0x00100513, 0x000105B7, 0x02458593, 0x00300613, 0x04000893, 0x73]
STORES = [0x00053583, 0x00B53423, 0x00B53023, 0x73]
LOADS = [0x02057407, 0x0AB57607, 0x0AC57607, 0x02056807, 0x73]
CODE24 = (24, "rx", little([0x804F806F]))


def sequential():
    e = Example(HI, ONE, c0=100, until=10100)
    yield "hi, issued", e.issues() + [e.e.E], [117, 120, 123, 126, 129, 132]
    yield "hi, ends", e.ends() + [e.e.why], [132, 152, 5, "service"]
    yield "hi, retired", [i.ret for i in e.e.instructions], [119, 122, 125, 128, 131]
    e = Example([0x513, 0x05D00893, 0x73], ONE, c0=203, until=10100)
    yield "exits", e.issues() + e.ends(), [220, 223, 226, 246, 2]
    for until, wanted in ((132, [132, 152, 5, "service"]), (131, [131, 151, 5, "slice"])):
        e = Example(HI, ONE, c0=100, until=until)
        yield f"hi, until {until}", e.ends() + [e.e.why], wanted
    e = Example(STORES, ONE, DATA, x=(0x11000,))
    yield "stores, starts", e.starts(), [[18], [42], [66]]
    yield "stores, serves", e.serves(), [[35], [59], [67]]
    yield "stores, issued", e.issues(), [17, 41, 65]
    yield "stores, retired", [i.ret for i in e.e.instructions], [40, 64, 72]
    yield "stores, ends", e.ends(), [73, 93, 3]
    yield "stores, A and D", [sorted(e.tables.a), sorted(e.tables.d)], [[16, 17], [17]]
    e = Example([0x0000806F, 0x73], ONE, (CODE24,))
    yield "far jumps, issued", e.issues() + [e.e.E], [17, 35, 53]
    e = Example([0x00053603, 0x0005B683, 0x00053703, 0x73], ONE, DATA + ((49, "rw", b""),), x=(0x11000, 0x31000))
    yield "far loads, serves", e.serves(), [[35], [59], [83]]
    yield "far loads, ends", e.ends(), [89, 109, 3]
    e = Example([0xC22022F3, 0x73], ONE)
    yield "vlenb, ends", e.ends(), [20, 40, 1]
    e = Example([0x00050067], ONE, x=(1 << 63,))
    yield "a wild jump", e.ends() + list(e.e.at), [20, 40, 1, 12, 1 << 63, 1 << 63]
    for until, wanted in ((1000, [42, 62, 1, 0]), (18, [18, 38, 0, 1]), (19, [41, 61, 1, 0])):
        e = Example([0x00057407, 0x73], ONE, DATA, x=(0x11000,), until=until, vector=(2, 0x1A, {0: 2}))
        yield f"masked, until {until}", e.ends() + [e.m.vstart], wanted
    yield "masked, serves", e.serves(), [[36]]


def long_batches():
    for until, wanted in ((1000, [106, 126, 4]), (39, [39, 63, 0]), (40, [44, 64, 1])):
        e = Example(LOADS, (4, 4, True), DATA, x=(0x11000, 32, 8), vector=EIGHT, until=until)
        yield f"loads, until {until}", e.ends(), wanted
        if until == 1000:
            yield "loads, starts", e.starts(), [[18, 35], [46, 47], [82, 83], [94, 95]]
            yield "loads, retired", [i.ret for i in e.e.instructions], [44, 80, 92, 105]
            yield "loads, serves", e.serves(), [[35, 35, 35, 35, 39, 39, 39, 39], [47, 51, 55, 59, 63, 67, 71, 75],
                                                [83, 83, 83, 83, 87, 87, 87, 87], [95, 99, 95, 99, 96, 100, 96, 100]]
    e = Example([0x02057427, 0x73], (4, 2, True), DATA, x=(0x11FE8,), vector=EIGHT)
    yield "across, faults", e.ends() + [e.m.vstart] + list(e.e.at), [50, 70, 0, 3, 15, 0x10000, 0x12000]
    yield "across, serves", e.serves(), [[35, 35, 39]]
    pages = DATA + ((18, "r", b""), (19, "r", b""))
    indices = {24: 0, 25: 8, 26: 0x1000, 27: 0x2000}
    e = Example([0x00063583, 0x06C57427, 0x73], (4, 8, True), pages, x=(0x11000, 0, 0x13000), vector=(4, 0x1A, indices))
    yield "scatters", e.ends() + [e.m.vstart] + list(e.e.at), [74, 94, 1, 2, 15, 0x10004, 0x12000]
    yield "scatters, serves", e.serves(), [[35], [59, 59]]
    yield "scatters, A and D", [sorted(e.tables.a), sorted(e.tables.d)], [[16, 17, 19], [17]]
    for until, wanted in ((1000, [69, 89, 1]), (44, [51, 79, 0])):
        e = Example([0x0AB57607, 0x73], (2, 4, True), DATA, x=(0x11000, 32), vector=EIGHT, until=until)
        yield f"apart, until {until}", e.ends(), wanted
        if until == 1000:
            yield "apart, starts", e.starts(), [[18, 35, 44, 52]]
            yield "apart, serves", e.serves(), [[35, 39, 43, 47, 51, 55, 59, 63]]
    uneven = {24 + n: v for n, v in enumerate((0, 8, 16, 24, 33, 40, 48, 56))}
    for until, wanted in ((39, [39, 59, 0, 4, "slice"]), (40, [39, 59, 0, 4, "fault"])):
        e = Example([0x06C57807], (4, 4, True), DATA, x=(0x11000,), vector=(8, 0x1A, uneven), until=until)
        yield f"uneven, until {until}", e.ends() + [e.m.vstart, e.e.why], wanted


if __name__ == "__main__":
    good = [check(*each) for part in (sequential, long_batches) for each in part()]
    print(f"{sum(good)} same, {len(good) - sum(good)} other")
    sys.exit(not all(good))
