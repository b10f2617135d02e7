"""The programs of tests/cases/times: families of (name, comment, options, programs), a program being (name, source, options). Its
options come behind those of the family. `EXIT` ends each source that doesn't fault."""

EXIT = "\nli a7, 93\necall"
ONE = "--lanes 1 --banks 1"


def delay(n, rest):
    """so many rounds of a loop of two instructions, six cycles each, and then the rest"""
    return f"li t0, {n}\n1: addi t0, t0, -1\nbnez t0, 1b\n{rest}"


def vectors(sew, lmul, line, vl="x0", before=""):
    return f"{before}\nvsetvli t1, {vl}, {sew}, {lmul}, ta, ma\n{line}"


SCALAR = ["addi a0, a0, 1", "add a0, a1, a2", "lui a0, 0\nauipc a1, 0", "mul a0, a1, a2", "mulhu a0, a1, a2", "mulw a0, a1, a2",
          "div a0, a1, a2\nli a0, 0", "remu a0, a1, a2", "divw a0, sp, sp", "mul a0, sp, sp\nmul a0, a0, a0\nli a0, 3",
          "div a1, sp, sp\nmul a0, a1, a1", "fence", "csrr a0, vlenb", "csrwi vxrm, 3\ncsrr a0, vcsr", "csrwi vstart, 9\ncsrr a0, vstart",
          "csrr a0, vl\ncsrr a0, vtype\nli a0, 0", "beqz a0, 1f\nnop\n1: addi a0, a0, 2", "bnez a0, 1f\naddi a0, a0, 5\n1:",
          "jal ra, 1f\nj 2f\n1: addi a0, a0, 7\nret\n2:", "vsetivli a0, 7, e8, m1, ta, ma", "vsetvli a0, x0, e16, m8, ta, ma",
          "vsetvli x0, x0, e8, m1, ta, ma\ncsrr a0, vl", "sd sp, -8(sp)\nld a1, -8(sp)\nsub a0, a1, sp", "li a7, 7\necall"]

ARITHMETIC = [("e32", "m2", s) for s in
              ("vadd.vv v8, v16, v24", "vsub.vx v8, v16, a1", "vand.vi v8, v16, 5", "vminu.vv v8, v16, v24, v0.t",
               "vadc.vvm v8, v16, v24, v0", "vmadc.vvm v8, v16, v24, v0", "vmsbc.vx v8, v16, a1", "vmerge.vim v8, v16, 1, v0",
               "vmv.v.i v8, 3", "vmseq.vv v8, v16, v24", "vmsltu.vx v8, v16, a1, v0.t", "vsadd.vi v8, v16, 9", "vssra.vi v8, v16, 3",
               "vnsrl.wi v8, v16, 4", "vnclip.wv v8, v16, v24", "vwaddu.vv v8, v16, v24", "vwsub.wv v8, v16, v24", "vsext.vf2 v8, v16",
               "vzext.vf4 v8, v16", "vaadd.vv v8, v16, v24", "vmul.vv v8, v16, v24", "vmacc.vx v8, a1, v16", "vmulhsu.vv v8, v16, v24",
               "vsmul.vv v8, v16, v24", "vwmul.vv v8, v16, v24", "vwmaccus.vx v8, a1, v16", "vdivu.vv v8, v16, v24",
               "vrem.vx v8, v16, a1, v0.t", "vredsum.vs v8, v16, v24", "vredmax.vs v8, v16, v24, v0.t", "vwredsumu.vs v8, v16, v24",
               "vrgather.vv v8, v16, v24", "vrgatherei16.vv v8, v16, v24", "vrgather.vi v8, v16, 3", "vslideup.vi v8, v16, 3",
               "vslidedown.vx v8, v16, a1", "vslide1up.vx v8, v16, a1", "vslide1down.vx v8, v16, a1", "vcompress.vm v8, v16, v0",
               "vmand.mm v8, v16, v24", "vcpop.m a0, v16", "vfirst.m a0, v16\nli a0, 4", "vmsbf.m v8, v16", "vmsof.m v8, v16, v0.t",
               "viota.m v8, v16", "vid.v v8", "vmv.x.s a0, v16", "vmv.s.x v8, a1", "vmv1r.v v8, v16", "vmv8r.v v8, v16")]
ARITHMETIC += [("e8", "mf8", "vadd.vv v8, v16, v24"), ("e8", "m8", "vadd.vv v8, v16, v24"), ("e64", "m8", "vdiv.vv v8, v16, v24"),
               ("e8", "m4", "vwmulu.vv v8, v16, v24"), ("e16", "mf2", "vredsum.vs v8, v16, v24"), ("e64", "m8", "vrgather.vv v8, v16, v24"),
               ("e8", "m8", "vmsne.vi v8, v16, 0"), ("e8", "m8", "vcpop.m a0, v16"), ("e16", "m4", "vnsra.wi v16, v16, 0"),
               ("e64", "m1", "vmv.x.s a0, v9"), ("e64", "m4", "vmerge.vxm v8, v16, a1, v0")]

# vl and vstart that leave words, groups or everything out
PARTS = [(s, n, k) for n, k in ((0, 0), (1, 0), (5, 2), (16, 9), (16, 16), (13, 3), (8, 8))
         for s in ("vadd.vv v8, v16, v24", "vwadd.vv v8, v16, v24", "vdiv.vv v8, v16, v24", "vmseq.vv v8, v16, v24", "vmv4r.v v8, v16",
                   "vmv.x.s a0, v16", "vmv.s.x v8, a1", "vslidedown.vi v8, v16, 1", "vredsum.vs v8, v16, v24", "vle32.v v8, (sp)")]

SWEEP = "\n".join(["vsetvli t1, x0, e16, m4, ta, ma", "vid.v v8", "vmul.vv v12, v8, v8", "vdivu.vx v16, v12, t1", "vadd.vv v20, v16, v8",
                   "vredsum.vs v4, v20, v8", "vmv.x.s a0, v4"]) + EXIT

# memory rows; a2 is the address of 2,048 bytes within the stack page below the top one
BASE = "lui a1, 1\nsub a2, sp, a1\nandi a2, a2, -256\nli a3, {stride}\n"
INDEXED = "vid.v v4\nvsll.vi v4, v4, {shift}\n"
MASKED = "li a4, 0x{mask}\nvsetivli x0, 1, e64, m1, ta, ma\nvmv.s.x v0, a4\n"
MEMORY = [("e64", "m1", 8, s) for s in
          ("vle64.v v8, (a2)", "vse64.v v8, (a2)", "vle8.v v8, (a2)", "vse16.v v8, (a2)", "vlm.v v8, (a2)", "vsm.v v8, (a2)", "vl1re8.v v8, (a2)",
           "vl2re64.v v8, (a2)", "vs1r.v v8, (a2)", "vl8re32.v v8, (a2)", "vlseg2e64.v v8, (a2)", "vsseg3e8.v v8, (a2)",
           "vlseg8e8.v v8, (a2)", "vlsseg4e32.v v8, (a2), a3", "vlse64.v v8, (a2), x0", "vsse64.v v8, (a2), x0",
           "vle64ff.v v8, (a2)", "vlseg2e32ff.v v8, (a2)")]
STRIDED = [(stride, options) for stride in (8, 16, 24, 32, 64, 128, -8)
           for options in ("--banks 1", "--banks 4", "--banks 16 --bank-time 7")]


def at(line, stride=8):
    return BASE.format(stride=stride) + line


WALKS = [
    ("two loads of one page", "ld a1, 0(sp)\nld a1, 8(sp)"),
    ("a load and a store of one page", "ld a1, 0(sp)\nsd a1, 8(sp)\nsd a1, 16(sp)"),
    ("a store and a load of one page", "sd a1, 0(sp)\nld a1, 8(sp)"),
    ("loads of two pages", "lui a1, 1\nsub a2, sp, a1\nld a3, 0(sp)\nld a3, 0(a2)\nld a3, 8(sp)\nld a3, 8(a2)"),
    ("the code and the first stack page have one place",
     "lui a1, 0xf\nsub a2, sp, a1\nauipc a4, 0\nld a3, 0(a2)\nld a3, 0(a4)\nld a3, 8(a2)\nld a3, 8(a4)\nli a3, 0\nld a3, 0(a4)"),
    ("a store where the code took the place", "lui a1, 0xf\nsub a2, sp, a1\nauipc a4, 0\nsd a3, 0(a2)\nld a3, 0(a4)\nsd a3, 8(a2)\nsd a3, 0(a2)"),
    ("D stays behind a service", "sd x0, 0(sp)\nli a7, 1\necall\nli a0, 0\nld a1, 0(sp)\nsd a1, 0(sp)"),
    ("D isn't set by a load in the episode before", "ld a1, 0(sp)\nli a7, 1\necall\nli a0, 0\nld a1, 0(sp)\nsd a1, 0(sp)\nsd a1, 8(sp)"),
    ("a vector load over a page's border", "lui a1, 1\nsub a2, sp, a1\nandi a2, a2, -256\naddi a2, a2, 232\n"
     "vsetivli t1, 8, e64, m2, ta, ma\nvle64.v v8, (a2)\nvse64.v v8, (a2)\nvle64.v v8, (a2)"),
    ("strides of a page", "li a3, -4096\nvsetivli t1, 8, e64, m2, ta, ma\nvlse64.v v8, (sp), a3\nvsse64.v v8, (sp), a3\nvlse64.v v8, (sp), a3"),
    ("fields on two pages", "li a3, 4080\nandi a2, sp, -256\nlui a1, 1\nsub a2, a2, a1\naddi a2, a2, 248\n"
     "vsetivli t1, 4, e64, m1, ta, ma\nvlseg4e64.v v8, (a2)\nvsseg4e64.v v8, (a2)"),
    ("the store's walk between two loads' hits", "vsetivli t1, 4, e64, m1, ta, ma\nvle64.v v8, (sp)\nvse64.v v8, (sp)\nvle64.v v8, (sp)"),
]

UP = "auipc a2, 0\nlui a1, 1\nadd a2, a2, a1\n"  # the address behind the code's page
FAULTS = [
    ("behind the code's page", UP + "vsetivli t1, 8, e64, m2, ta, ma\naddi a2, a2, -24\nvle64.v v8, (a2)"),
    ("behind the stack", "vsetivli t1, 8, e64, m2, ta, ma\naddi a2, sp, 224\nvle64.v v8, (a2)"),
    ("behind the stack, a store", "vsetivli t1, 8, e64, m2, ta, ma\naddi a2, sp, 224\nvse64.v v8, (a2)"),
    ("below the stack", "lui a3, 1\nneg a3, a3\nlui a1, 0xd\nsub a2, sp, a1\nvsetivli t1, 8, e64, m2, ta, ma\nvsse64.v v8, (a2), a3"),
    ("a store to code that isn't cached", "auipc a2, 0\nvsetivli t1, 4, e64, m1, ta, ma\nvse64.v v8, (a2)"),
    ("a store to code that is cached", "auipc a2, 0\nvsetivli t1, 4, e64, m1, ta, ma\nvle64.v v8, (a2)\nvse64.v v8, (a2)"),
    ("misaligned at element 2", MASKED.format(mask="4") + "vsetivli t1, 4, e64, m2, ta, ma\nvid.v v4\nvsll.vi v4, v4, 3\n"
     "vadd.vi v4, v4, 4, v0.t\nvluxei64.v v8, (sp), v4"),
    ("a field behind the stack", "vsetivli t1, 6, e64, m1, ta, ma\naddi a2, sp, 216\nvlseg2e64.v v8, (a2)"),
    ("a field fails, the other is queued", UP + "vsetivli t1, 6, e64, m1, ta, ma\naddi a2, a2, -40\nld a3, 0(a2)\nvlseg2e64.v v8, (a2)"),
    ("a masked element doesn't fail", UP + MASKED.format(mask="55") + "vsetivli t1, 8, e64, m2, ta, ma\naddi a2, a2, -24\nvle64.v v8, (a2), v0.t"),
    ("from a vstart", UP + "vsetivli t1, 8, e64, m2, ta, ma\naddi a2, a2, -40\ncsrwi vstart, 2\nvle64.v v8, (a2)"),
    ("at the first element from a vstart", UP + "vsetivli t1, 8, e64, m2, ta, ma\naddi a2, a2, -24\ncsrwi vstart, 3\nvle64.v v8, (a2)"),
    ("a scalar load with a vstart", "csrwi vstart, 5\nld a0, 1(sp)"),
    ("a scalar store to code", "auipc a2, 0\nsd a1, 0(a2)"),
    ("a scalar load of code, then a store", "auipc a2, 0\nld a1, 0(a2)\nsd a1, 0(a2)"),
    ("an index that is not canonical", "vsetivli t1, 4, e64, m2, ta, ma\nvmv.v.i v4, 0\nli a1, -1\nslli a1, a1, 40\nvslide1down.vx v6, v4, a1\nvluxei64.v v8, (sp), v6"),
    ("an illegal vector word", "vsetivli t1, 4, e64, m8, ta, ma\nvadd.vv v8, v16, v24\n.word 0x02218157"),
    ("vill", "vadd.vv v8, v16, v24"),
    ("a reduction with a vstart", "vsetivli t1, 4, e64, m1, ta, ma\ncsrwi vstart, 1\nvredsum.vs v8, v16, v24"),
    ("ebreak behind a division", "div a0, sp, sp\nebreak"),
    ("a write of vl", "nop\ncsrwi vl, 1"),
    ("a jump to code that isn't mapped", "lui a1, 0x20\njr a1"),
    ("a jump to the stack", "sd a1, 0(sp)\njr sp"),
    ("a jump that isn't canonical", "li a1, 1\nslli a1, a1, 38\njr a1"),
    ("a jump to a half word", "addi a1, sp, 2\njr a1"),
    ("the code's end", UP + "jr a2"),
]

FIRST = [
    ("behind the code's page", UP + "vsetivli t1, 8, e64, m2, ta, ma\naddi a2, a2, -24\nvle64ff.v v8, (a2)\ncsrr a0, vl"),
    ("behind the stack", "vsetivli t1, 16, e32, m2, ta, ma\naddi a2, sp, 224\nvle32ff.v v8, (a2)\ncsrr a0, vl"),
    ("at element 1", "vsetivli t1, 16, e8, m1, ta, ma\naddi a2, sp, 255\nvle8ff.v v8, (a2)\ncsrr a0, vl"),
    ("at element 0", "vsetivli t1, 16, e8, m1, ta, ma\naddi a2, sp, 256\nvle8ff.v v8, (a2)"),
    ("misaligned at element 0", "vsetivli t1, 16, e16, m1, ta, ma\naddi a2, sp, 1\nvle16ff.v v8, (a2)"),
    ("nowhere", "vsetivli t1, 16, e8, m1, ta, ma\nvle8ff.v v8, (sp)\ncsrr a0, vl"),
    ("fields behind the stack", "vsetivli t1, 8, e64, m1, ta, ma\naddi a2, sp, 216\nvlseg2e64ff.v v8, (a2)\ncsrr a0, vl"),
    ("a field that is queued is waited for", UP + "vsetivli t1, 8, e64, m1, ta, ma\naddi a2, a2, -40\nld a3, 0(a2)\nvlseg2e64ff.v v8, (a2)\ncsrr a0, vl"),
    ("fields on two new pages, the second denied", UP + "vsetivli t1, 4, e64, m1, ta, ma\naddi a2, a2, -24\nvlseg2e64ff.v v8, (a2)\ncsrr a0, vl"),
    ("a masked element", UP + MASKED.format(mask="f7") + "vsetivli t1, 8, e64, m2, ta, ma\naddi a2, a2, -24\nvle64ff.v v8, (a2), v0.t\ncsrr a0, vl"),
    ("element 0 masked", MASKED.format(mask="fe") + "vsetivli t1, 8, e64, m2, ta, ma\naddi a2, sp, 248\nvle64ff.v v8, (a2), v0.t\ncsrr a0, vl"),
    ("from a vstart", UP + "vsetivli t1, 8, e64, m2, ta, ma\naddi a2, a2, -24\ncsrwi vstart, 3\nvle64ff.v v8, (a2)\ncsrr a0, vl"),
    ("then arithmetic", UP + "vsetivli t1, 8, e64, m2, ta, ma\naddi a2, a2, -24\nvle64ff.v v8, (a2)\nvadd.vv v8, v8, v8\ncsrr a0, vl"),
]

# long vector memory rows that the slice's end meets; the budget makes the run stop there
LATE = [
    ("strided", "vsetvli t1, x0, e8, m8, ta, ma\nli a3, -8\nvlse8.v v8, (sp), a3", ""),
    ("strided, one bank of seven cycles", "vsetvli t1, x0, e8, m8, ta, ma\nli a3, -8\nvlse8.v v8, (sp), a3", "--banks 1 --bank-time 7"),
    ("masked", MASKED.format(mask="00ff00ff0f0f3355") + "vsetvli t1, x0, e8, m8, ta, ma\nvle8.v v8, (sp), v0.t", ""),
    ("store", "vsetvli t1, x0, e8, m8, ta, ma\naddi a2, sp, -256\nvse8.v v8, (a2)", "--banks 2 --bank-time 3"),
    ("segments", "vsetvli t1, x0, e8, m1, ta, ma\naddi a2, sp, -256\nvlseg8e8.v v8, (a2)", "--bank-time 2"),
    ("whole registers", "addi a2, sp, -256\nvs4r.v v8, (a2)", "--bank-time 1"),
    ("strides of a page", "vsetivli t1, 16, e8, m1, ta, ma\nli a3, -4096\nvsse8.v v8, (sp), a3", "--bank-time 16"),
    ("first only", "vsetvli t1, x0, e8, m8, ta, ma\nlui a2, 0x10\nlui a1, 1\nadd a2, a2, a1\naddi a2, a2, -100\nvle8ff.v v8, (a2)\ncsrr a0, vl", ""),
    ("a fault behind it", "vsetvli t1, x0, e8, m8, ta, ma\nlui a2, 0x10\nlui a1, 1\nadd a2, a2, a1\naddi a2, a2, -30\nvle8.v v8, (a2)", ""),
    ("division", "vsetvli t1, x0, e64, m8, ta, ma\nvdiv.vv v8, v16, v24\nvadd.vv v8, v8, v8", ""),
    ("scalar loads of new pages", "lui a1, 1\nsub a2, sp, a1\nld a3, 0(sp)\nld a3, 0(a2)\nsd a3, 0(a2)\nsub a2, a2, a1\nsd a3, 0(a2)", ""),
]

# calls of a function so many pages behind the code, which fills its place in the fetch cache
def far(gap, rounds):
    return (f"lui s0, {gap}\nauipc s1, 0\nadd s1, s1, s0\nli t0, {rounds}\n1: jalr ra, 28(s1)\naddi t0, t0, -1\nbnez t0, 1b" + EXIT
            + f"\n.org {4096 * gap + 32}\naddi a0, a0, 1\nret")


# code over a page's end, by steps and by jumps
BORDERS = [
    ("steps", "j 1f\n.org 4088\n1: addi a0, a0, 1\naddi a0, a0, 1\naddi a0, a0, 1\naddi a0, a0, 1" + EXIT),
    ("a jump at the end", "j 1f\n.org 4092\n1: j 2f\n2: li a0, 5" + EXIT),
    ("a branch back", "j 1f\n2: li a0, 6" + EXIT + "\n.org 4092\n1: beqz x0, 2b"),
    ("a branch that isn't taken", "j 1f\n.org 4092\n1: bnez x0, 1b\nli a0, 6" + EXIT),
    ("a division at the end", "j 1f\n.org 4088\n1: li a1, 2\ndiv a0, a1, a1\naddi a0, a0, 1" + EXIT),
    ("a service at the end", "j 1f\n.org 4088\n1: li a7, 3\necall\nli a0, 8" + EXIT),
    ("a vector row at the end", "vsetivli t1, 8, e64, m2, ta, ma\nj 1f\n.org 4092\n1: vle64.v v8, (sp)\nvadd.vv v8, v8, v8" + EXIT),
    ("the last word of the last page", "j 1f\n.org 4092\n1: nop"),
]

# a loop before a page's end: its slice ends with the last instruction of the page, while the next page's fetch is walked, or around it
ROUNDS = [(f"{n} rounds, {last.split()[0]}", f"li t0, {n}\nnop\nj 1f\n.org 4084\n1: addi t0, t0, -1\nbnez t0, 1b\n{last}\nli a0, 0" + EXIT)
          for n in (1659, 1660, 1661, 1662, 1663) for last in ("div a1, sp, sp", "nop", "ld a1, 0(sp)")]

# pages that are so far apart, read in turn; the code fills the page between
def apart(gap, want):
    other = f"lui a2, 16\nlui a1, {gap}\nadd a3, a2, a1\n"
    turns = "\n".join("ld a4, 0(a2)\nld a4, 8(a3)" for _ in range(2))
    return other + turns + (EXIT if want == "load" else "\nsd a4, 0(a2)") + f"\n.org {4096 * 40}\nnop"


# rows that run while vtype is vill
WITHOUT = ["vmv1r.v v8, v16", "vmv4r.v v8, v16", "vl1re64.v v8, (sp)", "vl2re16.v v8, (sp)", "addi a2, sp, -64\nvs2r.v v8, (a2)",
           "csrwi vstart, 9\nvl1re32.v v8, (sp)", "csrwi vstart, 6\nvl1re32.v v8, (sp)", "csrwi vstart, 31\nvmv1r.v v8, v16",
           "li a1, 32\ncsrw vstart, a1\nvmv1r.v v8, v16", "vl1re8.v v8, (sp)\nvmv1r.v v9, v8\nvs1r.v v9, (sp)"]


def write(offset, length, to=1):
    """writes so many bytes from so far behind the start of the code, where text stands over a page's end"""
    return (f"li a0, {to}\nauipc a1, 0\nli t0, {offset - 4}\nadd a1, a1, t0\nli a2, {length}\nli a7, 64\necall\nmv a3, a0\nli a0, 0" + EXIT
            + "\n.org 4064\n.ascii \"abcdefghijklmnopqrstuvwxyz0123456789ABCDEFGHIJKLMNOPQRSTUVWXYZ..\"")


WRITES = [("within a word", write(4065, 3)), ("over a word's border", write(4071, 2)), ("whole words", write(4064, 16)),
          ("over a page's border", write(4090, 12)), ("all", write(4064, 64, 2)), ("nothing", write(4064, 0)),
          ("no descriptor", write(4064, 9, 3)), ("no page", write(8180, 20))]


def lines_of(sources):
    return [(" / ".join(line.strip() for line in source.split("\n") if line.strip()), source, options) for source, options in sources]


def families():
    """each family: its name, what it shows, and its programs"""
    yield "scalar rows", "each scalar cost once", lines_of([(s + EXIT, "") for s in SCALAR])
    yield ("vector arithmetic on one lane", "each unit's latency and step, with a word in each beat",
           [(f"{sew} {m} {s}", vectors(sew, m, s) + EXIT, "--lanes 1") for sew, m, s in ARITHMETIC])
    yield ("vector arithmetic on two lanes", "groups of two words",
           [(f"{sew} {m} {s}", vectors(sew, m, s) + EXIT, "--lanes 2 --vlen 512") for sew, m, s in ARITHMETIC[::3]])
    yield ("parts of groups", "vl and vstart leave words, groups or all elements out",
           [(f"vl {n} vstart {k} {s}", vectors("e32", "m2", f"li a0, 0\nli a1, 5\ncsrwi vstart, {k}\n{s}\nli a0, 0", "a1", f"li a1, {n}") + EXIT,
             "--lanes 2") for s, n, k in PARTS if not (s.startswith("vred") and k)])
    yield ("lanes and lengths", "one program at each count of lanes and each VLEN",
           [(f"{v} {n}", SWEEP, f"--vlen {v} --lanes {n}") for v in (128, 256, 512, 1024, 2048) for n in (1, 2, 4, 8)])
    for options in ("--lanes 1", "--lanes 8 --banks 1 --bank-time 2", "--banks 2 --bank-time 16", "--vlen 128 --banks 16 --bank-time 1"):
        yield (f"vector memory rows {options}", "batches of one element",
               [(s, MASKED.format(mask="b5") + at(vectors(sew, m, s, "a4", f"li a4, {n}"), 40) + EXIT, options) for sew, m, n, s in MEMORY])
    yield ("strides and banks", "banks that meet, and that don't",
           [(f"{stride} {o}", at(vectors("e64", "m2", "vlse64.v v8, (a2), a3\nvsse64.v v8, (a2), a3", "a4", "li a4, 8"), stride) + EXIT, o)
            for stride, o in STRIDED])
    yield ("fields and banks", "accesses of one batch that meet in a bank, or not, at each bank time and count of banks",
           [(f"{t} {b}", at(vectors("e64", "m1", "vlseg8e64.v v8, (a2)\nvlsseg4e64.v v16, (a2), a3\nvsseg2e32.v v24, (a2)", "a4", "li a4, 3"), 200)
             + EXIT, f"--banks {b} --bank-time {t}") for t in (1, 2, 3, 4, 7, 16) for b in (1, 2, 4, 8, 16)])
    yield ("indexed and masked", "elements without an access have a batch of their own",
           [(f"{sh} {mask} {s}", MASKED.format(mask=mask) + at(vectors("e16", "m1", INDEXED.format(shift=sh) + s, "a4", "li a4, 12")) + EXIT,
             "--banks 4 --bank-time 7") for sh in (1, 3, 5) for mask in ("0", "fff", "e31")
            for s in ("vluxei16.v v8, (a2), v4, v0.t", "vsoxei16.v v8, (a2), v4, v0.t", "vloxseg2ei16.v v8, (a2), v4, v0.t")])
    yield ("walks", "at the first touch of a page, for D, and where two pages have one place", [(n, s + EXIT, "") for n, s in WALKS])
    yield ("walks at other bank times", "a walk lasts four bank times", [(n, s + EXIT, f"--bank-time {t}") for n, s in WALKS for t in (1, 16)])
    yield "faults", "of scalar and vector rows, at each kind of place", [(n, s, "") for n, s in FAULTS]
    yield ("faults with slow banks", "what is queued is waited for", [(n, s, "--lanes 1 --banks 1 --bank-time 16") for n, s in FAULTS[:13]])
    yield "first only", "loads that faults trim", [(n, s + EXIT, "") for n, s in FIRST]
    yield ("first only with slow banks", "what is queued of a trimmed element is waited for",
           [(n, s + EXIT, "--banks 1 --bank-time 16") for n, s in FIRST])
    for name, source, options in LATE:
        yield (f"a slice's end within: {name}", "the loop before it has so many rounds; the run ends there, or goes on",
               [(f"{n} {o}", delay(n, source) + EXIT, f"{options} {o}".strip()) for n in (1641, 1648, 1654, 1658, 1660) for o in ("--budget 10100", "")])
    for n in (1655, 1659):
        yield (f"a slice's end within strided loads after {n} rounds", "at each bank time and count of banks",
               [(f"{t} {b}", delay(n, LATE[0][1]) + EXIT, f"--budget 10100 --bank-time {t} --banks {b}") for t in (1, 2, 3, 4, 7, 16) for b in (1, 4)])
    yield ("many slices", "a row that lasts for more than a slice, at the ends of budgets",
           [(str(b), "vsetvli t1, x0, e8, m8, ta, ma\nvlse8.v v8, (sp), x0\nvlse8.v v8, (sp), x0\nvlse8.v v8, (sp), x0" + EXIT,
             f"--vlen 2048 --bank-time 16 --budget {b}") for b in (1000, 10100, 20200, 30300, 40400, 90000, 1000000)])
    yield "page ends", "fetches behind them", [(n, s, "") for n, s in BORDERS]
    yield "page ends at bank time 1", "fetches behind them", [(n, s, "--bank-time 1") for n, s in BORDERS]
    yield "fetches under way at a slice's end", "a loop over two pages", [(n, s, o) for n, s in ROUNDS for o in ("", "--budget 10100")]
    yield ("places of the fetch cache", "calls of a page so far away, some times",
           [(f"{gap} {n}", far(gap, n), "") for gap in (1, 7, 8, 9, 16) for n in (1, 3)])
    yield ("places of the data cache", "loads of two pages so far apart, in turn",
           [(f"{gap} {want}", apart(gap, want), "") for gap in (31, 32, 33) for want in ("load", "store")])
    yield "without a vtype", "rows of whole registers run while vill is set", [(s, s + EXIT, o) for s in WITHOUT for o in ("", ONE)]
    yield "writes", "the words of a service's pieces", [(n, s, "") for n, s in WRITES]
