#!/usr/bin/env python3
"""The peer of `ixt bench`, a model without proofs: drawn_peer.py STAGES SUMS NUMBER COUNT [LAST ..]

It draws an image of COUNT words from NUMBER, runs it on three or five stages, and prints the summary. Of an extension it knows two sums alone, as
those of examples/two-decoupled.core_desc: SUMS says how many of the two there are, and LAST for each the last time of its plan, where it is written later; a sum without
a LAST is written in the last stage, and is halved first. No word of these jumps, so the model has no redirects.
"""
import sys

MASK = 0xFFFFFFFF
BASE, SIZE = 0x80000000, 0x100000
SHAPES = {3: (1, 1, 2), 5: (1, 2, 3)}  # the stages in which operands are read, an instruction executes and memory is accessed
FIRST, LAST_WORD = 0x80000FB7, 0x00100073
ENCODINGS = [(0xFE00707F, 0x0000000B), (0xFE00707F, 0x0000100B)]


def signed(value, bits):
    return value - (1 << bits) if value >> (bits - 1) & 1 else value


def draw(state):
    while True:
        state = (1664525 * state + 1013904223) % 2**32
        yield state // 256


def drawn_word(numbers, encodings):
    k, d, p, q, v = (next(numbers) for _ in range(5))
    rd, rs1, rs2 = d % 30 + 1, p % 32, q % 32
    offset = 4 * (v % 512)
    sum_word = rs2 << 20 | rs1 << 15 | rd << 7 | 0x33
    words = [
        v % 4096 << 20 | rs1 << 15 | rd << 7 | 0x13,
        sum_word,
        sum_word | 0x40000000,
        sum_word | 0x4000,
        v % 2**20 << 12 | rd << 7 | 0x37,
        v % 32 << 20 | rs1 << 15 | 0x1000 | rd << 7 | 0x13,
        offset >> 5 << 25 | rs2 << 20 | 31 << 15 | 0x2000 | (offset & 31) << 7 | 0x23,
        offset << 20 | 31 << 15 | 0x2000 | rd << 7 | 0x03,
    ]
    words += [match | (2**24 * (q % 256) + v) & ~mask & MASK for mask, match in encodings]
    return words[k % len(words)]


def image(number, count, sums):
    numbers = draw(number)
    return [FIRST] + [drawn_word(numbers, ENCODINGS[:sums]) for _ in range(count)] + [LAST_WORD]


class Instruction:
    """What a word reads and writes: `native` and `spawned` are its targets, `unit` the unit of a sum that is written later."""

    def __init__(self, word, lasts, sums):
        self.rd, rs1, rs2 = word >> 7 & 31, word >> 15 & 31, word >> 20 & 31
        self.reads, self.native, self.spawned, self.unit = [], self.rd, None, None
        self.loads = self.stores = self.stops = False
        self.value = self.address = None
        code, kind = word & 127, word >> 12 & 7
        for unit, (mask, match) in enumerate(ENCODINGS[:sums]):
            if word & mask == match:
                self.reads = [rs1, rs2]
                if unit < len(lasts):
                    self.native, self.spawned, self.unit = None, self.rd, unit
                    self.value = lambda x: x[rs1] + x[rs2] + (3 if unit == 0 else 0)
                else:
                    self.value = lambda x: x[rs1] + x[rs2] >> 1
                return
        if code == 0x37:
            self.value = lambda x: word & 0xFFFFF000
        elif code == 0x13:
            self.reads = [rs1]
            self.value = (lambda x: x[rs1] << rs2) if kind == 1 else (lambda x: x[rs1] + signed(word >> 20, 12))
        elif code == 0x33:
            self.reads = [rs1, rs2]
            self.value = (lambda x: x[rs1] ^ x[rs2]) if kind == 4 else (lambda x: x[rs1] - x[rs2]) if word >> 30 & 1 else (lambda x: x[rs1] + x[rs2])
        elif code == 0x03:
            self.reads, self.loads = [rs1], True
            self.address = lambda x: x[rs1] + signed(word >> 20, 12) & MASK
        elif code == 0x23:
            self.reads, self.native, self.stores, self.source = [rs1, rs2], None, True, rs2
            self.address = lambda x: x[rs1] + signed(word >> 25 << 5 | self.rd, 12) & MASK
        else:
            self.native, self.stops = None, True


def first_stop(program):
    """The place of the instruction that stops the run one instruction at a time, and its stop."""
    x, memory = [0] * 32, {}
    for place, it in enumerate(program):
        if it.stops:
            return place, "Ebreak"
        if it.loads or it.stores:
            address = it.address(x)
            if address % 4:
                return place, "Misaligned"
            if not BASE <= address <= BASE + SIZE - 4:
                return place, "DataRange"
            if it.stores:
                memory[address] = x[it.source]
                continue
        if it.rd:
            x[it.rd] = memory.get(address, 0) if it.loads else it.value(x) & MASK
    return None, "none"


class Pipeline:
    def __init__(self, program, lasts, stages):
        self.program, self.lasts, self.stages = program, lasts, stages
        self.rd, self.ex, self.mem = SHAPES[stages]
        self.place, self.stop = first_stop(program)
        self.cells, self.fetch = [None] * stages, 0
        self.units = [{} for _ in lasts]  # of each unit the times of what stands in it, by serials
        self.rows = self.retired = self.written = 0

    def outstanding(self):
        return [serial for unit in self.units for serial in unit]

    def hold(self, stage, serial, writes, frozen, next_stays):
        it = self.program[serial]
        older = [cell for cell in self.cells[stage + 1 :] if cell is not None]
        spawned = [other for other in older + self.outstanding() if self.program[other].spawned is not None]
        last = self.stages - 1
        if stage == self.rd:
            if any(self.program[other].native == r for r in it.reads if r for other in older):
                return True
            targets = {r for r in it.reads + [it.native, it.spawned] if r}
            if any(self.program[other].spawned in targets or self.program[other].spawned == it.spawned for other in spawned):
                return True
        if stage == self.ex and serial == self.place:
            leaving = self.cells[last] if not self.stays[last] else None
            if any(other != writes and (other != leaving or other in spawned) for other in older + self.outstanding()):
                return True
        if stage == self.mem and it.loads and any(self.program[other].stores for other in older):
            return True
        if stage == last and (it.unit is not None and frozen[it.unit] or it.native and writes is not None):
            return True
        return next_stays and not (stage == self.ex and serial == self.place)

    def row(self):
        """One row; whether it has a stop."""
        if self.cells[0] is None and self.fetch < len(self.program):
            self.cells[0] = self.fetch
        finished = [[serial for serial, time in unit.items() if time == last] for unit, last in zip(self.units, self.lasts)]
        writer = next((number for number, those in enumerate(finished) if those), None)
        writes = None if writer is None else finished[writer][0]
        frozen = [bool(those) and number != writer for number, those in enumerate(finished)]
        self.stays, stops = [False] * self.stages, False
        for stage in reversed(range(self.stages)):
            serial = self.cells[stage]
            if serial is not None:
                next_stays = stage + 1 < self.stages and self.stays[stage + 1]
                held = self.hold(stage, serial, writes, frozen, next_stays)
                stops |= stage == self.ex and serial == self.place and not held
                self.stays[stage] = held or stage == self.ex and serial == self.place
        self.rows += 1
        self.written += writes is not None
        leaves = None if self.stays[-1] else self.cells[-1]
        self.retired += leaves is not None
        self.move(writes, frozen, leaves)
        return stops

    def move(self, writes, frozen, leaves):
        for number, unit in enumerate(self.units):
            unit.pop(writes, None)
            if not frozen[number]:
                for serial in unit:
                    unit[serial] += 1
        if leaves is not None:
            if self.program[leaves].unit is not None:
                self.units[self.program[leaves].unit][leaves] = self.stages
            self.cells[-1] = None
        for stage in reversed(range(self.stages - 1)):
            if self.cells[stage] is not None and not self.stays[stage]:
                self.cells[stage + 1], self.cells[stage] = self.cells[stage], None
                self.fetch += stage == 0


def main():
    stages, sums, number, count, *lasts = (int(word) for word in sys.argv[1:])
    program = [Instruction(word, lasts, sums) for word in image(number, count, sums)]
    pipeline = Pipeline(program, lasts, stages)
    while pipeline.rows < 200000 and not pipeline.row():
        pass
    stop = pipeline.stop if pipeline.rows < 200000 else "none"
    print(f"words {count + 2}\nrows {pipeline.rows}\nretired {pipeline.retired}\nwritten {pipeline.written}\nstop {stop}")


if __name__ == "__main__":
    main()
