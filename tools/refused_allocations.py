#!/usr/bin/env python3
"""Refuses each allocation of the program in turn: refused_allocations.py PROGRAM [--row NAME ..].

For each row of the table below and for each number n the program runs with its allocation n refused,
and once more with that one and all behind it refused. It must end with the status of Memory and no
byte on standard output, or with the status and the bytes of the undisturbed run. The program is taken
as it is: a small library that is loaded before the C library counts its calls of malloc and realloc.
A C compiler `cc` is needed, and glibc. The last lines are the counts, and `N passed, M failed`.
"""
import argparse
import os
import subprocess
import sys
import tempfile
from pathlib import Path

EXAMPLES = Path(__file__).resolve().parents[1] / "examples"
MEMORY = 12

LIBRARY = r"""
#include <errno.h>
#include <fcntl.h>
#include <stdlib.h>
#include <unistd.h>

extern void *__libc_malloc(size_t);
extern void *__libc_realloc(void *, size_t);

static long calls, refused = -2;
static int all_behind;

/* Whether this call is to be refused. The first one that is leaves a file as a sign. */
static int is_refused(void) {
    if (refused == -2) {
        const char *number = getenv("REFUSED_CALL");
        refused = number ? atol(number) : -1;
        all_behind = getenv("REFUSED_BEHIND") != 0;
    }
    long call = calls++;
    if (refused < 0 || call < refused || (call > refused && !all_behind)) return 0;
    if (call == refused) close(open(getenv("REFUSED_SIGN"), O_CREAT | O_WRONLY, 0600));
    errno = ENOMEM;
    return 1;
}

void *malloc(size_t size) { return is_refused() ? 0 : __libc_malloc(size); }
void *realloc(void *block, size_t size) { return is_refused() ? 0 : __libc_realloc(block, size); }
"""

ENCODING = "encoding: 7'd0 :: rs2[4:0] :: rs1[4:0] :: 3'd0 :: rd[4:0] :: 7'b0001011;"


def extension(behaviour):
    return f"InstructionSet A extends RV32I {{ instructions {{ i {{ {ENCODING} behavior: {behaviour} }} }} }}\n"


# What the rows read that is not among the examples.
FILES = {
    "addx": extension("X[rd] = (unsigned<32>)(X[rs1] + X[rs2]);"),
    "slow": extension("spawn X[rd] = (unsigned<32>)(X[rs1] + X[rs2] + 1 + 1 + 1);"),
    "bad": extension("X[rd] = X[rs1] + X[rs2];"),
    "mulx": extension("X[rd] = (unsigned<32>)(X[rs1] * X[rs2]);"),
    "s3": 'core = "three"\nperiod = 1000\n[delay]\nadd = 600\nmul = 1200\n',
    "s5": 'core = "five"\nperiod = 1000\n[delay]\nadd = 300\nmul = 600\n',
    "slow.hex": "00500093\n0010818b\n00900193\n00100073\n",
    "loop.hex": "00500093\n0010818b\nff9ff06f\n",
    "empty": "",
    "add.s": "loop: addi x1, x0, 5\nj loop\n",
}

# A name, and the words of the command; a word with `:` in front is a file of the examples.
ROWS = [
    ("run IMAGE", "run :first-run.hex 20"),
    ("schedule", "schedule addx s5"),
    ("run of a spawn", "run slow s3 slow.hex empty 20"),
    ("long run of a spawn", "run slow s3 loop.hex :some.waits 2000"),
    ("wave without a row", "wave addx s5 empty empty 0"),
    ("wave", "wave :dot-product.core_desc :five.toml :dot-product.hex :some.waits 60"),
    ("run with LINES", "run slow s3 loop.hex :some.waits :some.lines 200"),
    ("check", "check :square-root.core_desc"),
    ("seq", "seq :dot-product.core_desc :dot-product.hex 10"),
    ("asm", "asm :dot-product.core_desc :count-down.s"),
    ("sweep", "sweep addx s5"),
    ("build", "build addx s5"),
    ("certify", "certify :addition.report"),
    ("bench", "bench slow s3 1 100"),
    ("audit", "audit :wide-add.core_desc :three.toml :first-run.hex empty :first-run.trace"),
    ("barrel", "barrel slow s3 slow.hex :first-run.hex 100"),
    ("a refused extension", "check bad"),
    ("a refused image", "run add.s 20"),
    ("no schedule", "schedule mulx s3"),
    ("words that are no command", "run"),
]


def run(words, room, environment):
    done = subprocess.run(words, cwd=room, env=environment, stdin=subprocess.DEVNULL,
                          stdout=subprocess.PIPE, stderr=subprocess.DEVNULL, check=False)
    return done.returncode, done.stdout


def refuse_in_turn(words, room, library, behind):
    """Refuses each call in turn: the count of calls, how many of these runs answer Memory, and what
    is wrong with others."""
    plain = {**os.environ, "LD_PRELOAD": str(library)}
    due = run(words, room, plain)
    sign = room / "sign"
    refused, faults, call = 0, [], 0
    while True:
        environment = {**plain, "REFUSED_CALL": str(call), "REFUSED_SIGN": str(sign)}
        if behind:
            environment["REFUSED_BEHIND"] = "1"
        status, text = run(words, room, environment)
        if not sign.exists():
            return call, refused, faults + ([] if (status, text) == due else ["undisturbed, another answer"])
        sign.unlink()
        if (status, text) == (MEMORY, b""):
            refused += 1
        elif (status, text) != due:
            faults.append(f"call {call} refused: status {status} and {len(text)} bytes")
        call += 1


def made_library(room):
    (room / "refuse.c").write_text(LIBRARY)
    words = ["cc", "-O1", "-shared", "-fPIC", "-o", room / "refuse.so", room / "refuse.c"]
    try:
        subprocess.run(words, check=True)
    except (OSError, subprocess.CalledProcessError) as fault:
        sys.exit(f"refused_allocations: no library could be made: {fault}")
    return room / "refuse.so"


def main():
    parser = argparse.ArgumentParser(description=__doc__, formatter_class=argparse.RawDescriptionHelpFormatter)
    parser.add_argument("program", help="the proved program ixt")
    parser.add_argument("--row", nargs="+", help="only these rows")
    options = parser.parse_args()
    program = Path(options.program).resolve()
    passed = failed = 0
    with tempfile.TemporaryDirectory(prefix="ixt-refused-") as folder:
        room = Path(folder)
        for name, text in FILES.items():
            (room / name).write_text(text)
        library = made_library(room)
        for name, command in ROWS:
            if options.row and name not in options.row:
                continue
            words = [program, *(str(EXAMPLES / it[1:]) if it[0] == ":" else it for it in command.split(" "))]
            for behind in [False, True]:
                calls, refused, faults = refuse_in_turn(words, room, library, behind)
                passed += calls - len(faults)
                failed += len(faults)
                print(f"{name}{', and all behind it' if behind else ''}: {calls} calls, {refused} answer Memory", flush=True)
                for fault in faults[:5]:
                    print(f"failed: {name}: {fault}", flush=True)
    print(f"{passed} passed, {failed} failed")
    return 1 if failed else 0


if __name__ == "__main__":
    sys.exit(main())
