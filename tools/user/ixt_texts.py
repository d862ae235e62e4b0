"""What the scripts of this folder share: reading traces, reports and sources, running the program,
and refusing bad input.

docs/FORMATS.md has the form of each text. A script raises BadInput with a line for the user, and
`finish` turns it into a message on standard error and the exit status 1. The status 2 is that of a
wrong command line.
"""
import os
import re
import subprocess
import sys
from pathlib import Path
from typing import NamedTuple

ROOT = Path(__file__).resolve().parents[2]
LAUNCHER = ROOT / "ixt"

# The kinds of operations: those on the core, those that are wires and no gates, and those that are
# gates.
CORE_KINDS = [
    "RdInstr",
    "RdRS1",
    "RdRS2",
    "RdPC",
    "RdCustReg",
    "RdMem",
    "WrRD",
    "WrPC",
    "WrCustReg",
    "WrMem",
]
WIRE_KINDS = ["concat", "range", "cast"]
GATE_KINDS = [
    "add",
    "sub",
    "mul",
    "and",
    "or",
    "xor",
    "not",
    "neg",
    "shl",
    "shr",
    "eq",
    "ne",
    "lt",
    "le",
    "gt",
    "ge",
    "land",
    "lor",
    "lnot",
    "mux",
    "rom",
]

# Stages of a core, from the first to the last, by their count: a letter for pictures, and what
# happens there.
STAGES = {
    3: [("F", "fetch"), ("X", "operands and execute"), ("W", "write-back")],
    4: [("F", "fetch"), ("R", "operands"), ("X", "execute"), ("W", "memory and write-back")],
    5: [("F", "fetch"), ("R", "operands"), ("X", "execute"), ("M", "memory"), ("W", "write-back")],
}

# Reasons for which an instruction stays where it is: a code of two letters for pictures, and what
# it waits for.
HOLDS = {
    "Operand": ("Op", "a register that an older instruction writes"),
    "Board": ("Bo", "a register that a later write is due to"),
    "Custom": ("Cu", "a custom register that an older instruction writes"),
    "Late": ("La", "the program counter that an older instruction writes"),
    "Trap": ("Tr", "older instructions, to take an interrupt behind them"),
    "Drain": ("Dr", "older instructions, to stop the run behind them"),
    "Wait": ("Wa", "the memory"),
    "StoreAhead": ("SA", "an older store"),
    "Tail": ("Ta", "its own module, past the last stage"),
    "UnitFull": ("UF", "its unit, which is held up"),
    "Port": ("Po", "the write port, which a later write takes"),
    "Behind": ("Be", "the next stage to be free"),
}

# Of these the number in brackets counts rows or names a unit; of the others it is an instruction.
COUNTED_HOLDS = ("Wait", "Tail", "UnitFull", "Behind", "Trap")


class BadInput(Exception):
    """What is wrong with an input, in one line for the user."""


def finish(main):
    """Runs a script's `main` and ends with its status; a BadInput is a message and the status 1."""
    name = Path(sys.argv[0]).name
    try:
        status = main() or 0
        sys.stdout.flush()
    except BadInput as fault:
        print(f"{name}: {fault}", file=sys.stderr)
        status = 1
    except KeyboardInterrupt:
        status = 130
    except BrokenPipeError:
        # (the reader of the output has gone; nothing is left to be flushed at the end)
        os.dup2(os.open(os.devnull, os.O_WRONLY), sys.stdout.fileno())
        status = 1
    sys.exit(status)


def lines_of(path):
    """The lines of a text file without their line feeds, one after another; `-` is standard
    input."""
    try:
        source = sys.stdin.fileno() if path == "-" else path
        with open(source, encoding="utf-8", newline="\n", closefd=path != "-") as file:
            for line in file:
                yield line.rstrip("\n")
    except OSError as fault:
        raise BadInput(f"{path}: {fault.strerror}") from fault
    except UnicodeDecodeError as fault:
        raise BadInput(f"{path}: this is no text in UTF-8") from fault


def write_output(path, text):
    """Writes a whole text to a file, or to standard output for `-`."""
    if path == "-":
        sys.stdout.write(text)
        return
    try:
        Path(path).write_text(text, encoding="utf-8")
    except OSError as fault:
        raise BadInput(f"{path}: {fault.strerror}") from fault


def shown(line):
    """A line of input as a message shows it: its start, and only visible characters."""
    start = "".join(it if it.isprintable() else "?" for it in line[:60])
    return f"`{start}{'..' if len(line) > 60 else ''}`"


# Running the program


class Answer(NamedTuple):
    """What a command of the program gave: its exit status and its standard output."""

    status: int
    text: str


def run_program(program, words):
    """Runs the program on words. A refusal is an Answer too; BadInput where no answer came."""
    try:
        done = subprocess.run(
            [str(program), *map(str, words)],
            stdout=subprocess.PIPE,
            stderr=subprocess.PIPE,
            check=False,
        )
    except OSError as fault:
        raise BadInput(f"the program {program} cannot be run: {fault.strerror}") from fault
    text = done.stdout.decode("utf-8", "replace")
    if (
        done.returncode in (3, 5, 12)
        or done.returncode < 0
        or (done.returncode and not text.startswith("refused "))
    ):
        said = done.stderr.decode("utf-8", "replace").strip().splitlines()
        why = f": {said[-1]}" if said else ""
        raise BadInput(
            f"the program gave no answer to `{' '.join(map(str, words))}` "
            f"(status {done.returncode}){why}"
        )
    return Answer(done.returncode, text)


def refusal_of(answer):
    """The line with which the program refused, or the empty text where it did not."""
    return answer.text.split("\n", 1)[0] if answer.status else ""


# Traces


class Cell(NamedTuple):
    """An instruction in a stage: its serial, its address, and why it stays there, with the name
    alone (empty where it goes on)."""

    serial: int
    address: str
    hold: str
    hold_name: str


class Retirement(NamedTuple):
    """The line `=` of an instruction that retires: what it is, and what it wrote."""

    serial: int
    address: str
    word: str
    writes: str


class Row:
    """One clock cycle of a trace: its number, its cells from the first stage on (None for an empty
    one), and its marks."""

    retired = None  # the serial of the instruction that retires
    late = None  # the serial of the instruction whose late write is done
    flushed = ()  # the serials of the instructions that are flushed
    redirect = None  # the address to which the next fetch goes instead
    taken = None  # the address to which the handler of an interrupt returns that is taken
    stop = None  # the name of the stop
    retirement = None

    def __init__(self, number, cells):
        self.number = number
        self.cells = cells


HOLD = (
    r"(?:Operand\(x\d+,\d+\)|Board\([xc]\d+,\d+\)|Custom\(c\d+,\d+\)|Trap|Behind"
    r"|(?:Late|Drain|Wait|StoreAhead|Tail|UnitFull|Port)\(\d+\))"
)
ROW_LINE = re.compile(
    rf"(\d+)(?: (?:-|\d+@[0-9a-f]{{8}}(?:/{HOLD})?)){{3,5}}"
    r"((?: r\d+)?(?: w\d+)?(?: f\d+)*(?: p[0-9a-f]{8})?(?: i[0-9a-f]{8})?(?: stop [A-Za-z]+)?)",
    re.ASCII,
)
WRITES = r"(?: (?:x\d+|c\d+|m[0-9a-f]{8}|pc)=(?:[0-9a-f]+|later))*"
RETIREMENT_LINE = re.compile(rf"= (\d+) ([0-9a-f]{{8}}) ([0-9a-f]{{8}})({WRITES})", re.ASCII)
LATE_LINE = re.compile(rf"\+ \d+{WRITES}", re.ASCII)
STATE_LINE = re.compile(
    r"(?:pc|epc) [0-9a-f]{8}|enabled [01]|[xc]\d+ [0-9a-f]+|o \d+ [xc]\d+"
    r"|m [0-9a-f]{8} [0-9a-f]{8}",
    re.ASCII,
)


class Trace:
    """A trace that is read row by row, each one with the lines that belong to it: `for row in
    Trace(path)`.

    `stages` is the count of stages once a row was read, else 0. BadInput for the first line that
    does not belong to a trace, with its number.
    """

    def __init__(self, path):
        self.path = path
        self.stages = 0
        self._cells = Cells({"-": None})

    def __iter__(self):
        row, state = None, False
        place, count = 0, 0
        for place, line in enumerate(lines_of(self.path), 1):
            if state:
                self._state(place, line)
            elif line[:1].isdigit():
                if row is not None:
                    yield self._whole(place, row)
                row = self._row(place, line, count)
                count += 1
            elif line == "state":
                state = True
            else:
                self._behind(place, line, row)
        if not state:
            raise self._bad(place + 1, "the text ends before its state, so it is no whole trace")
        if row is not None:
            yield self._whole(place, row)

    def _bad(self, place, why):
        name = "standard input" if self.path == "-" else self.path
        return BadInput(f"{name}, line {place}: {why}")

    def _row(self, place, line, count):
        form = ROW_LINE.fullmatch(line)
        if not form:
            raise self._bad(place, f"{shown(line)} is no row of a trace")
        number, marks = form.groups()
        if number != str(count):
            raise self._bad(place, f"row {count} is missing, {shown(line)} stands there")
        fields = line[len(number) + 1 : form.start(2)].split(" ")
        if self.stages != len(fields):
            if self.stages:
                raise self._bad(
                    place,
                    f"{shown(line)} has {len(fields)} stages, "
                    f"the rows before it have {self.stages}",
                )
            self.stages = len(fields)
        cells = self._cells
        row = Row(count, [cells[field] for field in fields])
        if marks:
            read_marks(row, marks.split())
        return row

    def _behind(self, place, line, row):
        """The line `=` or `+` behind a row."""
        form = RETIREMENT_LINE.fullmatch(line)
        if form and row is not None and row.retirement is None and row.retired == int(form[1]):
            row.retirement = Retirement(row.retired, form[2], form[3], form[4].strip())
        elif not (row is not None and row.late is not None and LATE_LINE.fullmatch(line)):
            raise self._bad(place, self._why(line, row))

    def _why(self, line, row):
        if line.startswith("refused "):
            return f"the program refused the run: {shown(line)}"
        if row is None and line.startswith("= "):
            return "this is a run one instruction at a time, and no trace of a pipeline"
        return f"{shown(line)} does not belong here in a trace"

    def _whole(self, place, row):
        if row.retired is not None and row.retirement is None:
            raise self._bad(place, f"the line `= {row.retired} ..` of row {row.number} is missing")
        return row

    def _state(self, place, line):
        if not STATE_LINE.fullmatch(line):
            raise self._bad(place, f"{shown(line)} is no line of a state")


class Cells(dict):
    """The cells of the fields that were read last: an instruction has the same field in each stage
    that it passes."""

    def __missing__(self, field):
        head, _, hold = field.partition("/")
        serial, _, address = head.partition("@")
        cell = Cell(int(serial), address, hold, hold.partition("(")[0])
        if len(self) > 1000:
            self.clear()
            self["-"] = None
        self[field] = cell
        return cell


def read_marks(row, marks):
    """What stands behind the stages of a row."""
    flushed = []
    for at, mark in enumerate(marks):
        if mark == "stop":
            row.stop = marks[at + 1]
            break
        if mark[0] == "r":
            row.retired = int(mark[1:])
        elif mark[0] == "w":
            row.late = int(mark[1:])
        elif mark[0] == "f":
            flushed.append(int(mark[1:]))
        elif mark[0] == "i":
            row.taken = mark[1:]
        else:
            row.redirect = mark[1:]
    row.flushed = flushed


def hold_parts(hold):
    """What stands in the brackets of a hold: its register or None, and its last number or None."""
    inside = hold.partition("(")[2].rstrip(")")
    if not inside:
        return None, None
    register, comma, number = inside.rpartition(",")
    return (register if comma else None), int(number)


def redirector_of(row):
    """The instruction that sent the fetch elsewhere in this row: the youngest one that is not
    flushed in it, or None where there is none, or an interrupt is taken."""
    if row.taken is not None:
        return None
    for cell in row.cells:
        if cell is not None and cell.serial not in row.flushed:
            return cell
    return None


# Sources and images


class SourceLine(NamedTuple):
    """The line of a source that an address has: its number from 1, its labels, its text, and its
    word where it is an image's."""

    number: int
    labels: str
    text: str
    word: str


LABEL = re.compile(r"([A-Za-z_][A-Za-z0-9_]*):(.*)", re.ASCII)
BLANKS = " \t\r"


def read_source(path):
    """The lines of an assembly source, or of an image, by the addresses of their words.

    A file in which each line with a word is eight hexadecimal digits is an image.
    """
    lines = list(lines_of(path))
    plain = [line.strip(BLANKS) for line in lines]
    words = [it for it in plain if it and not it.startswith(("#", "//"))]
    if words and all(re.fullmatch(r"[0-9A-Fa-f]{8}", it) for it in words):
        return image_lines(plain)
    return assembly_lines(plain)


def image_lines(plain):
    found = {}
    for number, line in enumerate(plain, 1):
        if line and not line.startswith(("#", "//")):
            found[f"{4 * len(found):08x}"] = SourceLine(number, "", line.lower(), line.lower())
    return found


def assembly_lines(plain):
    found, labels = {}, []
    for number, line in enumerate(plain, 1):
        line = line.partition("#")[0].strip(BLANKS)
        form = LABEL.fullmatch(line)
        if form:
            labels.append(form[1])
            line = form[2].strip(BLANKS)
        if line:
            found[f"{4 * len(found):08x}"] = SourceLine(
                number, " ".join(labels), " ".join(line.split()), ""
            )
            labels = []
    return found


def check_source(source, words):
    """BadInput where the source cannot be that of a run: `words` are the run's words by address,
    empty for unknown ones."""
    for address, word in sorted(words.items()):
        line = source.get(address)
        if line is None:
            raise BadInput(
                f"the source has no word at {address}, where the trace fetches: "
                "is it the source of this program?"
            )
        if word and line.word and word != line.word:
            raise BadInput(
                f"the source has {line.word} at {address}, where the trace has {word}: "
                "is it the source of this program?"
            )


def source_text(source, address):
    """The labels and the text of an address, or the empty text where there is no source."""
    if source is None:
        return ""
    line = source[address]
    return f"{line.labels}: {line.text}" if line.labels else line.text


# Reports


class Operation:
    """An operation of a behaviour; `time` is None where the behaviour has no schedule, and
    `weight` is what it costs to keep the result for one time: 1, or its width in bits."""

    __slots__ = ("number", "kind", "delay", "latency", "weight", "early", "late", "time")

    def __init__(self, numbers, kind):
        self.kind = kind
        self.number, self.delay, self.latency, self.weight, *times = numbers
        self.early, self.late, self.time = times


class Bound(NamedTuple):
    """A bound `early`, `late`, `dep` or `chain`, with the operations that it names, and the amount
    of a flow or 0."""

    name: str
    operations: list
    amount: int


class Behaviour:
    """A behaviour of a report; `weighted` says whether its operations have widths."""

    def __init__(self, name, mode, weighted):
        self.name = name
        self.mode = mode
        self.weighted = weighted
        self.operations = []
        self.edges = []
        self.cost = None
        self.flows = []
        self.cycle = []


class Report(NamedTuple):
    """A report: the period, its behaviours, and the line of a refusal or the empty text."""

    period: int
    behaviours: list
    refusal: str


OPERATION_LINE = re.compile(
    r"op (\d+) ([A-Za-z0-9.]+) delay (\d+) latency (\d+)(?: width (\d+))?"
    r" early (\d+) late (\d+)(?: time (\d+))?",
    re.ASCII,
)
HEADS = ["longnail report 1", "longnail report 2"]
MODES = ["InPipeline", "Tight", "Decoupled", "Always", "none"]
BOUND_SIZES = {"early": (1, 1), "late": (1, 1), "dep": (2, 2), "chain": (1, None)}


def parse_report(lines, name):
    """The report that these lines are. Its form is read and not its truth, which `ixt certify`
    checks."""
    lines = list(lines)
    start = 1 if lines and lines[0].startswith("refused ") else 0
    refusal = lines[0] if start else ""
    if refusal and len(lines) == 1:
        raise BadInput(f"{name}: there is no report, the program refused: {shown(refusal)}")
    if len(lines) <= start or lines[start] not in HEADS:
        raise BadInput(f"{name}, line {start + 1}: a report starts with `{HEADS[0]}` or `.. 2`")
    weighted = lines[start] == HEADS[1]
    form = re.fullmatch(
        r"period (\d{1,7})", lines[start + 1] if len(lines) > start + 1 else "", re.ASCII
    )
    if not form or int(form[1]) == 0:
        raise BadInput(f"{name}, line {start + 2}: the period must stand here")
    behaviours, open_one = [], None
    for place, line in enumerate(lines[start + 2 :], start + 3):
        if open_one is None:
            open_one = behaviour_head(line, weighted, place, name)
        elif line == "end":
            behaviours.append(whole_behaviour(open_one, place, name))
            open_one = None
        else:
            behaviour_line(open_one, line, place, name)
    if open_one is not None:
        raise BadInput(f"{name}: the text ends inside of the behaviour {open_one.name}")
    return Report(int(form[1]), behaviours, refusal)


def behaviour_head(line, weighted, place, name):
    words = line.split(" ")
    if len(words) != 3 or words[0] != "behaviour" or words[2] not in MODES:
        raise BadInput(f"{name}, line {place}: {shown(line)} starts no behaviour")
    return Behaviour(words[1], words[2], weighted)


def behaviour_line(behaviour, line, place, name):
    """Takes one more line of a behaviour in."""
    words = line.split(" ")
    fault = BadInput(f"{name}, line {place}: {shown(line)} is no line of a behaviour")
    try:
        if words[0] == "op":
            add_operation(behaviour, OPERATION_LINE.fullmatch(line), fault)
        elif words[0] == "edge" and len(words) == 3:
            behaviour.edges.append(tuple(places_of(behaviour, words[1:], fault)))
        elif words[0] == "cost" and len(words) == 2:
            behaviour.cost = number_of(words[1], fault)
        elif words[0] == "flow" and len(words) > 3:
            behaviour.flows.append(
                bound_of(behaviour, words[2:], number_of(words[1], fault), fault)
            )
        elif words[0] == "cycle" and len(words) > 2:
            behaviour.cycle.append(bound_of(behaviour, words[1:], 0, fault))
        else:
            raise fault
    except IndexError:
        raise fault from None


def number_of(word, fault):
    if not re.fullmatch(r"\d{1,20}", word, re.ASCII):
        raise fault
    return int(word)


def places_of(behaviour, words, fault):
    """The operations that words name, which all stand before."""
    found = [number_of(word, fault) for word in words]
    if any(it >= len(behaviour.operations) for it in found):
        raise fault
    return found


def bound_of(behaviour, words, amount, fault):
    if words[0] not in BOUND_SIZES:
        raise fault
    least, most = BOUND_SIZES[words[0]]
    operations = places_of(behaviour, words[1:], fault)
    if len(operations) < least or (most is not None and len(operations) > most):
        raise fault
    return Bound(words[0], operations, amount)


def add_operation(behaviour, form, fault):
    if (
        not form
        or int(form[1]) != len(behaviour.operations)
        or (form[5] is not None) != behaviour.weighted
        or (form[8] is None) != (behaviour.mode == "none")
    ):
        raise fault
    numbers = [int(form[at]) if form[at] is not None else None for at in (1, 3, 4, 5, 6, 7, 8)]
    if any(it is not None and it > 255 for it in numbers[2:]):
        raise fault
    numbers[3] = 1 if numbers[3] is None else numbers[3]
    if not 1 <= numbers[3] <= 128:
        raise fault
    kind = form[2]
    if kind.partition(".")[0] not in CORE_KINDS + WIRE_KINDS + GATE_KINDS:
        raise fault
    behaviour.operations.append(Operation(numbers, kind))


def whole_behaviour(behaviour, place, name):
    if behaviour.mode == "none" and not behaviour.cycle:
        raise BadInput(
            f"{name}, line {place}: the behaviour {behaviour.name} has no schedule and no cycle"
        )
    if behaviour.mode != "none" and behaviour.cost is None:
        raise BadInput(f"{name}, line {place}: the behaviour {behaviour.name} has no cost")
    return behaviour


def kind_name(kind):
    """The kind without the number of a register."""
    return kind.partition(".")[0]


# Options that several scripts have


def add_program_option(parser):
    program = os.environ.get("IXT") or str(LAUNCHER)
    parser.add_argument(
        "--ixt",
        metavar="PATH",
        default=program,
        help="the program (else $IXT, else the launcher of this repository)",
    )


def add_output_option(parser):
    parser.add_argument(
        "-o", "--output", metavar="FILE", default="-", help="where to write (else standard output)"
    )


def positive(word):
    """A whole number from 1 on, for argparse."""
    number = int(word)
    if number < 1:
        raise ValueError(word)
    return number


def natural(word):
    """A whole number from 0 on, for argparse."""
    number = int(word)
    if number < 0:
        raise ValueError(word)
    return number
