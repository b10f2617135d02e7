"""The cycles of programs: the timing equations as they stand, over lists of all earlier instructions, batches and accesses, for a
window of one instruction and batches of one element, and the rounds of a system of one process whose pages are all present."""

from flat import CAUSES, Machine, canonical

SWITCH, TRAP, SERVICE, SLICE = 100, 20, 50, 10000
LATENCY = {"A": 2, "M": 4, "D": 16, "P": 4}


class Access:
    def __init__(self, element, address, size):
        self.element, self.address, self.size = element, address, size
        self.page = address >> 12
        self.q = self.serve = self.done = self.known = self.word = None
        self.fails = address % size != 0 and "misaligned" or not canonical(address) and "page"


class Batch:
    def __init__(self, instruction):
        self.instruction = instruction
        self.st = self.en = self.cm = None
        self.accesses = []


class Instruction:
    def __init__(self, step):
        self.step = step
        self.t = self.gen = self.complete = self.ret = None
        self.beats = []
        self.batches = []


class Tables:
    """the leaf entries of the process: which pages have A and D set"""

    def __init__(self, machine):
        regions = {page >> 18 for page in machine.pages}
        leaves = {page >> 9 for page in machine.pages}
        self.count = 1 + len(regions) + len(leaves)
        self.need = self.count + len(machine.pages)
        self.frame = {page: self.count + n for n, page in enumerate(sorted(machine.pages))}
        self.a, self.d = set(), set()


class Episode:
    def __init__(self, machine, tables, options, c0, until):
        self.m, self.tables, self.c0, self.until = machine, tables, c0, until
        self.L, self.B, self.K = options["lanes"], options["banks"], options["bank-time"]
        self.long = options.get("long batches", False)
        self.instructions, self.batches, self.accesses = [], [], []
        self.fills = {"fetch": [], "data": []}
        self.leaf_writes = []
        self.E = self.why = self.at = None

    # fetch and issue

    def fetch(self):
        """f of the next instruction, and whether its page may be executed"""
        before = self.instructions[-1] if self.instructions else None
        p = self.c0 + 1 if before is None else before.t + (2 if before.step.jump else 1)
        page = self.m.pc >> 12
        if not canonical(self.m.pc):
            return p, False
        if self.entry("fetch", page, 8):
            return p, True
        end = p + 4 * self.K
        good = self.m.granted(self.m.pc, "fetch")
        if good:
            self.leaf_writes.append((end, page, False))
            self.fills["fetch"].append((page, False))
        return end, good

    def issue(self, f, serial):
        if not self.instructions:
            return max(f, self.c0 + 1)
        before = self.instructions[-1]
        terms = [f, before.t + 1, before.ret + 1]
        if before.step.first_only:
            terms.append(before.gen + 1)
        return max(terms)

    def entry(self, side, page, entries):
        """what the cache keeps of the page: the last fill at its place, where it is of this page"""
        for kept, dirty in reversed(self.fills[side]):
            if kept % entries == page % entries:
                return (kept, dirty) if kept == page else None
        return None

    # beats and the words that they make

    def beat(self, i):
        """the beats of a vector arithmetic instruction, and its last ready cycle"""
        step, unit = i.step, i.step.unit
        unit_of = "M" if unit == "D" else unit
        last = None
        for j in reversed(self.instructions):
            if j.beats and ("M" if j.step.unit == "D" else j.step.unit) == unit_of:
                last = j.beats[-1] + (8 if j.step.unit == "D" else 1)
                break
        own = 8 if unit == "D" else 1
        for g in sorted({word // self.L for word in step.words}):
            terms = [i.t + 1] + ([last] if last is not None else []) + ([i.beats[-1] + own] if i.beats else [])
            i.beats.append(max(terms))
        return i.beats[-1] + LATENCY[unit] if i.beats else i.t + 1

    # batches, look-ups and walks, queue and serves

    def start(self, i, batch):
        """st of the batch; source words are ready before i is issued, since all earlier instructions are complete"""
        terms = [i.t + 1]
        if self.batches:
            terms.append(self.batches[-1].en + 1)
        if len(self.batches) > 1:
            terms.append(self.batches[-2].cm + 1)
        if i.step.want == "store":
            terms.append(self.last_ret() + 1)
        return max(terms)

    def last_ret(self):
        return self.instructions[-1].ret if self.instructions else self.c0

    def look(self, batch, want):
        """looks all accesses of the batch up, and walks the pages that missed"""
        missed = []
        for a in batch.accesses:
            if a.fails:
                a.known = batch.st
                continue
            kept = self.entry("data", a.page, 32)
            if kept is None or want == "store" and self.m.granted(a.address, "store") and not kept[1]:
                missed += [] if a.page in missed else [a.page]
            elif self.m.granted(a.address, want):
                a.q = batch.st
            else:
                a.fails, a.known = "page", batch.st
        batch.en = batch.st
        for page in missed:
            of_page = [a for a in batch.accesses if a.page == page and a.q is None and a.known is None]
            lower = batch.accesses[:batch.accesses.index(of_page[0])]
            if any(a.known is not None and a.known <= batch.en for a in lower):
                continue
            batch.en += 4 * self.K
            if self.m.granted(page << 12, want):
                dirty = want == "store" or self.is_dirty(page)
                self.leaf_writes.append((batch.en, page, want == "store"))
                self.fills["data"].append((page, dirty))
                for a in of_page:
                    a.q = batch.en
            else:
                for a in of_page:
                    a.fails, a.known = "page", batch.en

    def is_dirty(self, page):
        return page in self.tables.d or any(of == page and d for _, of, d in self.leaf_writes)

    def queue(self, batch):
        """q, serve and done of the accesses of the batch"""
        for n, a in enumerate(batch.accesses):
            if a.q is None:
                continue
            a.word = (self.tables.frame[a.page] * 4096 + a.address % 4096) // 8
            lower = batch.accesses[:n]
            for b in lower:
                if b.word == a.word and b.word is not None:
                    a.q = max(a.q, b.q)
            if any(b.known is not None and b.known <= a.q for b in lower):
                a.q = None
        for a in sorted((a for a in batch.accesses if a.q is not None), key=lambda a: a.q):
            a.serve = a.q + 1
            for b in reversed(self.accesses):
                assert b.q <= a.q
                if b.word % self.B == a.word % self.B:
                    a.serve = max(a.serve, b.serve + self.K)
                    break
            a.done, a.batch = a.serve + self.K, batch
            self.accesses.append(a)

    # commits and stops

    def stop(self, why, E, at=None):
        self.why, self.E, self.at = why, E, at

    def commit(self, cycle):
        """a commit at that cycle, which may end the episode"""
        if cycle >= self.until:
            self.stop("slice", cycle)
        return self.why is not None

    def groups(self, elements):
        """the elements of each batch: one, or, where batches are long, the longest run with at most as many accesses as lanes"""
        groups = []
        for k, accesses in elements:
            if groups and self.long and sum(len(own) for _, own in groups[-1]) + len(accesses) <= self.L:
                groups[-1].append((k, accesses))
            else:
                groups.append([(k, accesses)])
        return groups

    def batch(self, i, group):
        batch = Batch(i)
        batch.accesses = [Access(k, address, size) for k, accesses in group for address, size in accesses]
        batch.st = self.start(i, batch)
        return batch

    def memory(self, i):
        """the batches of a memory instruction; false where the episode ends within it"""
        step, m, pc = i.step, self.m, self.m.pc
        groups = self.groups(step.elements)
        for n, group in enumerate(groups):
            batch = self.batch(i, group)
            self.look(batch, step.want)
            self.queue(batch)
            self.batches.append(batch)
            i.batches.append(batch)
            failing = [a for a in batch.accesses if a.known is not None]
            k = failing[0].element if failing else group[-1][0] + 1
            for element, _ in group:
                if element < k:
                    step.element(element)
            if failing and step.first_only and k > 0:
                m.vl = k
                break
            if failing:
                self.batch_stop(i, batch, failing[0], pc)
                return False
            if n < len(groups) - 1:
                done = [a.done for b in i.batches for a in b.accesses]
                batch.cm = max([self.last_ret() + 1] + done + [b.en for b in i.batches])
                if self.commit(batch.cm):
                    m.vstart = k
                    self.ahead(i, groups[n + 1])
                    return False
        i.gen = i.batches[-1].en if i.batches else i.t + 1
        i.complete = max([i.t + 1, i.gen] + [a.done for b in i.batches for a in b.accesses if a.done is not None])
        return True

    def batch_stop(self, i, batch, lowest, pc):
        step, k = i.step, lowest.element
        done = [a.done for b in i.batches for a in b.accesses if a.done is not None and a.element < k]
        E = max([batch.en, self.last_ret() + 1] + done)
        cause = CAUSES[step.want] if lowest.fails == "page" else {"load": 4, "store": 6}[step.want]
        if step.vector:
            self.m.vstart = k
        self.stop("fault", E, (cause, pc, lowest.address))

    def ahead(self, i, group):
        """the batch behind the one whose commit ended the episode: what it looks up and queues by then; one behind that starts later"""
        batch = self.batch(i, group)
        if batch.st <= self.E:
            self.look(batch, i.step.want)
            self.queue(batch)

    def run(self):
        while self.why is None:
            self.one()
        for cycle, page, dirty in self.leaf_writes:
            if cycle <= self.E:
                self.tables.a.add(page)
                if dirty:
                    self.tables.d.add(page)
        self.Z = max([self.E] + [a.done for a in self.accesses if a.q <= self.E]) + TRAP

    def one(self):
        m, pc = self.m, self.m.pc
        f, good = self.fetch()
        if not good:
            return self.stop("fault", self.issue(f, True), (12, pc, pc))
        step = m.next()
        i = Instruction(step)
        i.t = self.issue(f, step.serial)
        if step.fault:
            return self.stop("fault", i.t, (step.fault[0], pc, step.fault[1]))
        if step.service:
            return self.stop("service", i.t)
        if step.elements is not None:
            if not self.memory(i):
                return None
        elif step.unit:
            i.complete = self.beat(i)
        else:
            i.complete = i.t + step.cycles
        i.ret = max(self.last_ret() + 1, i.complete + 1)
        if i.batches:
            i.batches[-1].cm = i.ret
        self.instructions.append(i)
        step.apply()
        self.commit(i.ret)
        return None


class System:
    """one process, from the boot to the report"""

    def __init__(self, image, options):
        self.options = options
        self.m = Machine(image, options["vlen"])
        self.tables = Tables(self.m)
        self.now = self.cycles = 0
        self.standing = None
        self.episodes = []

    def run(self):
        self.now += SWITCH
        until = self.now + SLICE
        while True:
            episode = Episode(self.m, self.tables, self.options, self.now, until)
            episode.run()
            self.episodes.append(episode)
            self.cycles += episode.Z - self.now
            self.now = episode.Z
            if episode.why == "service":
                self.service()
            elif episode.why == "fault":
                cause, pc, tval = episode.at
                self.standing = f"faulted cause {cause} pc 0x{pc:016x} tval 0x{tval:016x} vstart {self.m.vstart}"
            if self.standing:
                return self.report("done")
            if self.now >= self.options["budget"]:
                self.standing = f"stopped pc 0x{self.m.pc:016x} vstart {self.m.vstart}"
                return self.report("spent")
            if episode.why == "slice":
                until = self.now + SLICE

    def spend(self, cycles):
        self.now += cycles
        self.cycles += cycles

    def service(self):
        m = self.m
        number, to, start, length = m.x[17], m.x[10], m.x[11], m.x[12]
        if number == 93:
            code = to - (1 << 64) if to >> 63 else to
            self.standing = f"exited {code}"
        m.go(m.pc + 4)
        if number == 64:
            m.x[10] = self.put_out(to, start, length)
        elif number != 93:
            m.x[10] = (1 << 64) - 38
        self.spend(SERVICE)

    def put_out(self, to, start, length):
        m = self.m
        if to not in (1, 2):
            return (1 << 64) - 9
        if length == 0:
            return 0
        pages = range(start >> 12, (start + length - 1 >> 12) + 1) if start + length <= 1 << 64 else []
        if not pages or len(pages) > 4096 or not all(m.granted(page << 12, "load") for page in pages):
            return (1 << 64) - 14
        if len(m.output) + length > 1 << 20:
            return (1 << 64) - 28
        for page in pages:
            first, last = max(start, page << 12), min(start + length, page + 1 << 12) - 1
            self.spend(last // 8 - first // 8 + 1)
            m.output += bytes(m.pages[page][first & 4095:(last & 4095) + 1])
        return length

    def report(self, word):
        lines = f"process 0: {self.standing}\n  instructions {self.m.count} cycles {self.cycles} misses 0\n"
        lines += f"  output {len(self.m.output)}\n"
        return lines.encode() + self.m.output + f"\ntotal {self.now} cycles, {word}\n".encode()
