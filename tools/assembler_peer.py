#!/usr/bin/env python3
"""Compares the words of `ixt asm` with those of GNU as for RISC-V, on the forms that both have, and times both.

    tools/assembler_peer.py PATH_TO_IXT [LINES]

It needs `riscv64-linux-gnu-as` and `riscv64-linux-gnu-objcopy`. It prints the count of words that are the same, and the two times."""
import random, struct, subprocess, sys, tempfile, time

EXTENSION = "InstructionSet None extends RV32I { }\n"
REGISTERS = [f"x{r}" for r in range(32)] + "zero ra sp gp tp t0 t1 t6 s0 s11 fp a0 a7".split()
BINARY = "add sub sll slt sltu xor srl sra or and".split()
IMMEDIATE = "addi slti sltiu xori ori andi".split()
LOADS, STORES = "lb lh lw lbu lhu".split(), "sb sh sw".split()
BRANCHES = "beq bne blt bge bltu bgeu".split()


def line(rng, labels):
    register = lambda: rng.choice(REGISTERS)
    small = lambda: rng.randint(-2048, 2047)
    return rng.choice([
        lambda: f"{rng.choice(BINARY)} {register()}, {register()}, {register()}",
        lambda: f"{rng.choice(IMMEDIATE)} {register()}, {register()}, {small()}",
        lambda: f"{rng.choice(['slli', 'srli', 'srai'])} {register()}, {register()}, {rng.randint(0, 31)}",
        lambda: f"{rng.choice(LOADS + STORES)} {register()}, {small()}({register()})",
        lambda: f"jalr {register()}, {small()}({register()})",
        lambda: f"{rng.choice(BRANCHES)} {register()}, {register()}, {rng.choice(labels)}",
        lambda: f"jal {register()}, {rng.choice(labels)}",
        lambda: f"{rng.choice(['lui', 'auipc'])} {register()}, {rng.randint(0, 0xfffff)}",
        lambda: rng.choice(["ecall", "ebreak", "nop", "ret", f"j {rng.choice(labels)}", f"mv {register()}, {register()}"]),
    ])()


def source(count):
    rng, lines = random.Random(7), []
    for number in range(count):
        block = number // 512
        mark = f"l{block}: " if number % 512 == 0 else ""
        lines.append(mark + line(rng, [f"l{block}"]))
    return "\n".join(lines) + "\n"


def timed(command, **more):
    start = time.time()
    done = subprocess.run(command, check=True, **more)
    return time.time() - start, done


def main():
    ixt, count = sys.argv[1], int(sys.argv[2]) if len(sys.argv) > 2 else 65536
    with tempfile.TemporaryDirectory() as folder:
        for name, text in (("e", EXTENSION), ("s", source(count))):
            open(f"{folder}/{name}", "w").write(text)
        ours, done = timed([ixt, "asm", "e", "s"], cwd=folder, stdout=subprocess.PIPE)
        words = [int(word, 16) for word in done.stdout.split()]
        theirs, _ = timed(["riscv64-linux-gnu-as", "-march=rv32i", "-mabi=ilp32", "-mno-relax", "-o", "o", "s"], cwd=folder)
        subprocess.run(["riscv64-linux-gnu-objcopy", "-O", "binary", "-j", ".text", "o", "b"], check=True, cwd=folder)
        raw = open(f"{folder}/b", "rb").read()
        due = list(struct.unpack(f"<{len(raw) // 4}I", raw))
        same = sum(a == b for a, b in zip(words, due))
        print(f"{same} of {len(due)} words are the same, {len(words)} here; {ours:.2f} s here, {theirs:.2f} s there")
        sys.exit(0 if same == len(due) == len(words) else 1)


main()
