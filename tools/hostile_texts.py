#!/usr/bin/env python3
"""Runs each command of the program on hostile texts: hostile_texts.py PROGRAM [--kind KIND ..]
[--command WORD ..] [--text NAME] [--deep].

A hostile text has at most 1,048,576 bytes and is the deepest, longest or widest of its kind in some
direction. Each command that reads that kind is run on it. It must end by itself, with a status of
the table of refusals, with nothing on standard output but the line of a refusal, nothing but visible
characters on standard error, and within the bars on processor time and memory. Texts that multiply
are read again in 500,000 KB of memory, where the answer is the same or Memory, and the deepest ones
with a stack of 256 KB, where it is the same. `--deep` tries these alone, and names for each that fails
the least of some greater stacks in which it is answered.

The kinds are extension, sheet, image, waits, lines, source, trace, report, module, file and long. Each
failure is a line; the last lines are a table of what each command took at most, and `N passed, M
failed`.
"""
import argparse
import hashlib
import os
import resource
import signal
import subprocess
import sys
import tempfile
from pathlib import Path
from typing import NamedTuple

from hostile import extensions, others
from hostile.runs import LONG
from hostile.texts import MOST

EXAMPLES = Path(__file__).resolve().parents[1] / "examples"
STATUSES = {0, 4, 6, 7, 8, 9, 10, 11, 12, 13, 14, 15, 16, 17}
SILENT = {5, 12}
MEMORY = 12
NO_SCHEDULE = 10

# The bars: processor seconds, and megabytes.
SECONDS = {"sweep": 10.0}
OTHER_SECONDS = 3.0
MEGABYTES = 700
# No run may take more than this, so that the machine goes on.
MOST_SECONDS = 20
MOST_MEGABYTES = 3_000
TIGHT_BYTES = 500_000 * 1_024
SMALL_STACK = 256 * 1_024
# The stacks that are tried where the small one is too small, in KB.
GREATER_STACKS = [320, 384, 448, 512, 640, 768, 1_024, 2_048, 4_096, 8_192]

# For each kind of text the commands that read it, in which `@` is the text.
COMMANDS = {
    "extension": [
        "check @",
        "seq @ add.hex 3",
        "asm @ add.s",
        "schedule @ five.toml",
        "sweep @ five.toml",
        "build @ five.toml",
        "run @ five.toml add.hex some.waits 3",
        "wave @ five.toml add.hex some.waits 3",
        "bench @ five.toml 1 10",
        "audit @ five.toml add.hex some.waits add.trace",
        "barrel @ five.toml add.hex add.hex 3",
    ],
    "sheet": [
        "schedule dot.core_desc @",
        "sweep dot.core_desc @",
        "build dot.core_desc @",
        "run dot.core_desc @ add.hex some.waits 3",
        "wave dot.core_desc @ add.hex some.waits 3",
        "bench dot.core_desc @ 1 10",
        "audit dot.core_desc @ add.hex some.waits add.trace",
        "barrel dot.core_desc @ add.hex add.hex 3",
    ],
    "image": [
        "run @ 3",
        "run dot.core_desc three.toml @ some.waits 3",
        "seq dot.core_desc @ 3",
        "wave dot.core_desc three.toml @ some.waits 3",
        "audit dot.core_desc three.toml @ some.waits add.trace",
        "barrel dot.core_desc three.toml @ add.hex 3",
        "barrel dot.core_desc three.toml add.hex @ 3",
    ],
    "waits": [
        "run dot.core_desc three.toml add.hex @ 3",
        "wave dot.core_desc three.toml add.hex @ 3",
        "audit dot.core_desc three.toml add.hex @ add.trace",
    ],
    "lines": ["run dot.core_desc three.toml add.hex some.waits @ 3"],
    "source": ["asm dot.core_desc @"],
    "trace": ["audit dot.core_desc three.toml add.hex some.waits @"],
    "report": ["certify @"],
}
TEXTS = {
    "extension": extensions.ALL,
    "sheet": others.SHEETS,
    "image": others.IMAGES,
    "waits": others.WAITS,
    "lines": others.LINES,
    "source": others.SOURCES,
    "trace": others.TRACES,
    "report": others.REPORTS,
}


class Ended(NamedTuple):
    """How a run ended: its status (negative for a signal), processor seconds, megabytes, where its
    standard output begins, how long that is, and its sum; and its standard error."""

    status: int
    seconds: float
    megabytes: float
    first: bytes
    length: int
    total: str
    error: bytes


def limited(bytes_of_memory, stack, most_seconds):
    """What a child does before it becomes the program."""
    resource.setrlimit(resource.RLIMIT_AS, (bytes_of_memory, bytes_of_memory))
    resource.setrlimit(resource.RLIMIT_CPU, (most_seconds, most_seconds + 5))
    resource.setrlimit(resource.RLIMIT_CORE, (0, 0))
    if stack:
        resource.setrlimit(resource.RLIMIT_STACK, (stack, stack))


def run(words, room, memory=MOST_MEGABYTES * 1_000_000, stack=None, source=None, most_seconds=MOST_SECONDS):
    """Runs the words in the folder, and waits for what they took."""
    with open(room / "out", "wb") as out, open(room / "err", "wb") as err:
        child = subprocess.Popen(
            words,
            cwd=room,
            stdin=open(source, "rb") if source else subprocess.DEVNULL,
            stdout=out,
            stderr=err,
            preexec_fn=lambda: limited(memory, stack, most_seconds),
        )
        _, status, used = os.wait4(child.pid, 0)
        child.returncode = os.waitstatus_to_exitcode(status)
    total = hashlib.sha256()
    with open(room / "out", "rb") as out:
        first = out.read(1_000)
        out.seek(0)
        while piece := out.read(MOST):
            total.update(piece)
    return Ended(
        child.returncode,
        used.ru_utime + used.ru_stime,
        used.ru_maxrss / 1_000,
        first,
        (room / "out").stat().st_size,
        total.hexdigest(),
        (room / "err").read_bytes(),
    )


def stack_faults(words, room, ended, source=None):
    """What is wrong with a run on the small stack: it does not end as on another."""

    def is_same(again):
        return (again.status, again.total) == (ended.status, ended.total)

    again = run(words, room, stack=SMALL_STACK, source=source)
    if is_same(again):
        return []
    fit = next((it for it in GREATER_STACKS if is_same(run(words, room, stack=it * 1_024, source=source))), None)
    least = f"needs at most {fit} KB" if fit else "no greater one is enough"
    return [f"ends with {again.status} on a stack of 256 KB, and {ended.status} on another: {least}"]


# What an ended run is judged by


def signal_name(status):
    try:
        return signal.Signals(-status).name
    except ValueError:
        return f"signal {-status}"


def faults_of(ended, seconds, megabytes, large=False):
    """What is wrong with a run; where a large result is due, Memory is an answer too."""
    if ended.status < 0:
        yield f"ends by {signal_name(ended.status)} after {ended.seconds:.1f} s with {ended.megabytes:.0f} MB"
        return
    if ended.status not in STATUSES:
        yield f"ends with the status {ended.status}"
    if ended.status == MEMORY and not large:
        yield f"answers Memory at {ended.megabytes:.0f} MB"
    if ended.status in SILENT and ended.length:
        yield f"writes {ended.length} bytes and ends with the status {ended.status}"
    refused = ended.first.startswith(b"refused ")
    if ended.status not in SILENT and refused == (ended.status == 0):
        yield f"ends with the status {ended.status}, and writes `{shown(ended.first)}`"
    if ended.status not in SILENT | {0, NO_SCHEDULE} and (
        ended.first.count(b"\n") != 1 or ended.length > 1_000
    ):
        yield f"writes more than a line, and ends with the status {ended.status}"
    if any(it not in b"\t\n" and not 32 <= it < 127 for it in ended.error) or len(ended.error) > 4_096:
        yield "writes what is not visible, or too much, on standard error"
    if ended.seconds > seconds:
        yield f"takes {ended.seconds:.1f} s of processor time, where {seconds:.0f} s is the bar"
    if ended.megabytes > megabytes:
        yield f"takes {ended.megabytes:.0f} MB, where {megabytes} MB is the bar"


def shown(line):
    return line.split(b"\n", 1)[0][:60].decode("ascii", "replace")


class Tally:
    """What passed, what failed, and the most that each command took."""

    def __init__(self):
        self.passed = self.failed = 0
        self.time, self.memory, self.runs = {}, {}, {}

    def judge(self, name, faults):
        for fault in faults:
            self.failed += 1
            print(f"failed: {name} {fault}", flush=True)
            break
        else:
            self.passed += 1

    def measure(self, command, name, ended):
        self.runs[command] = self.runs.get(command, 0) + 1
        for table, taken in [(self.time, ended.seconds), (self.memory, ended.megabytes)]:
            table[command] = max(table.get(command, (0.0, "")), (taken, name))

    def tell(self):
        print("\n| Command | Runs | Most time | Text | Most memory | Text |\n|---|---|---|---|---|---|")
        for command, runs in self.runs.items():
            (seconds, slow), (megabytes, large) = self.time[command], self.memory[command]
            print(f"| `{command}` | {runs} | {seconds:.2f} s | {slow} | {megabytes:.0f} MB | {large} |")
        print(f"{self.passed} passed, {self.failed} failed")


# The runs


def prepare(room):
    """Lays the other files of the commands into the folder."""
    for name, example in [("dot.core_desc", "dot-product.core_desc"), ("add.hex", "first-run.hex"),
                          ("five.toml",) * 2, ("three.toml",) * 2, ("some.waits",) * 2]:
        (room / name).write_bytes((EXAMPLES / example).read_bytes())
    (room / "none.core_desc").write_text("InstructionSet A extends RV32I { }")
    (room / "add.s").write_text("addi x1, x0, 5\n")
    (room / "add.trace").write_bytes((EXAMPLES / "first-run.trace").read_bytes())


def try_text(program, room, kind, text, command, tally, due):
    """Runs a command on the text that lies in the folder; with little memory and a small stack where
    that is asked for."""
    name = f"{command.split(' ', 1)[0]} of the {kind} `{text.name}`"
    words = [program, *command.replace("@", "text").split(" ")]
    ended = run(words, room)
    seconds = SECONDS.get(command.split(" ", 1)[0], OTHER_SECONDS)
    faults = list(faults_of(ended, seconds, MEGABYTES, text.large))
    silent = text.large and ended.status == MEMORY
    if not faults and due and not silent and not ended.first.startswith(text.due.encode()):
        faults.append(f"writes `{shown(ended.first)}` in place of `{text.due}`")
    tally.judge(name, faults)
    tally.measure(command.split(" ", 1)[0], f"{kind}: {text.name}", ended)
    if text.tight:
        again = run(words, room, memory=TIGHT_BYTES)
        same = (again.status, again.total) == (ended.status, ended.total)
        none = again.status == MEMORY and not again.length
        tally.judge(name, [] if same or none else [f"ends with {again.status} in 500,000 KB, and {ended.status} with more"])
    if text.deep:
        tally.judge(name, stack_faults(words, room, ended))


def try_texts(program, room, wanted, tally):
    for kind, texts in TEXTS.items():
        for text in texts:
            commands = [it for it in COMMANDS[kind] if wanted(kind, text.name, it, text.deep)]
            if not commands:
                continue
            whole = text.make()
            assert len(whole) <= MOST, text.name
            (room / "text").write_bytes(whole)
            del whole
            for command in commands:
                try_text(program, room, kind, text, command, tally, command == COMMANDS[kind][0])


def try_modules(program, room, wanted, tally):
    """Has the Verilog reader read modules, by the program of its cases."""
    for text in others.MODULES:
        if not wanted("module", text.name, "read", text.deep):
            continue
        (room / "text").write_bytes(b"read\n" + text.make())
        ended = run([program], room, source=room / "text")
        faults = list(faults_of(ended, OTHER_SECONDS, MEGABYTES))
        if not faults and not ended.first.startswith(text.due.encode()):
            faults.append(f"writes `{shown(ended.first)}` in place of `{text.due}`")
        tally.judge(f"read of the module `{text.name}`", faults)
        tally.measure("read", f"module: {text.name}", ended)
        if text.deep:
            tally.judge(f"read of the module `{text.name}`", stack_faults([program], room, ended, room / "text"))


def try_files(program, room, wanted, tally):
    """What is no file, or has no end, in the place of each file."""
    (room / "folder").mkdir()
    places = [("/dev/zero", 6, "TooLong"), ("folder", 4, "ReadFault"), ("missing", 4, "ReadFault"),
              ("n" * 5_000, 4, "ReadFault"), ("", 4, "ReadFault")]
    for kind, commands in COMMANDS.items():
        for command in commands:
            for file, status, rule in places:
                if not wanted("file", rule, command):
                    continue
                words = [it.replace("@", file) for it in command.split(" ")]
                ended = run([program, *words], room)
                line = f"refused {rule} {file}\n".encode()
                faults = []
                if (ended.status, ended.first) != (status, line[:1_000]) or ended.length != len(line):
                    faults.append(f"ends with {ended.status} and `{shown(ended.first)}`")
                tally.judge(f"{command} with `{file[:20]}`", faults)


def try_runs(program, room, wanted, tally):
    """Long runs, each with a bar of its own."""
    for it in LONG:
        if not wanted("long", it.name, it.words):
            continue
        for name, make in it.files.items():
            (room / name).write_bytes(make())
        if it.before:
            run([program, *it.before.split(" ")], room)
            (room / "made.trace").write_bytes((room / "out").read_bytes()[:MOST])
        ended = run([program, *it.words.split(" ")], room, most_seconds=60)
        tally.judge(f"the long run `{it.name}`", faults_of(ended, it.seconds, MEGABYTES))
        tally.measure(f"{it.words.split(' ', 1)[0]}, long", it.name, ended)


def main():
    parser = argparse.ArgumentParser(description=__doc__, formatter_class=argparse.RawDescriptionHelpFormatter)
    parser.add_argument("program", help="the proved program ixt")
    parser.add_argument("--kind", nargs="+", help="only texts of these kinds")
    parser.add_argument("--command", nargs="+", help="only commands whose first word is one of these")
    parser.add_argument("--text", help="only texts whose name has this")
    parser.add_argument("--deep", action="store_true", help="only the deepest texts of each kind")
    parser.add_argument("--modules", help="the program verilog_cases, which reads modules")
    options = parser.parse_args()

    def wanted(kind, text, command, deep=False):
        return (
            (deep or not options.deep)
            and (not options.kind or kind in options.kind)
            and (not options.command or command.split(" ", 1)[0] in options.command)
            and (not options.text or options.text in text)
        )

    tally = Tally()
    with tempfile.TemporaryDirectory(prefix="ixt-hostile-") as folder:
        room, program = Path(folder), str(Path(options.program).resolve())
        prepare(room)
        try:
            try_files(program, room, wanted, tally)
            try_texts(program, room, wanted, tally)
            if options.modules:
                try_modules(str(Path(options.modules).resolve()), room, wanted, tally)
            try_runs(program, room, wanted, tally)
        except KeyboardInterrupt:
            print("not all texts were tried")
    tally.tell()
    return 1 if tally.failed else 0


if __name__ == "__main__":
    sys.exit(main())
