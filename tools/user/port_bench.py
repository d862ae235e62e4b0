"""Test benches of modules, for tools/user/ports.py: each use of a behaviour in a run one
instruction at a time becomes inputs and wanted outputs of its module."""
import re
from typing import NamedTuple

from ixt_texts import BadInput, kind_name, shown

FIRST = 1
STEP = re.compile(r"= (\d+) ([0-9a-f]{8}) ([0-9a-f]{8})((?: \w+=[0-9a-f]+)*)", re.ASCII)
CUSTOM_STATE = re.compile(r"c(\d+) ([0-9a-f]+)", re.ASCII)
PLACES = ("place", "loads")  # of a load in a test bench: its address, and whether it loads
JUMPS = (0x63, 0x67, 0x6F)  # the opcodes of the base set that may write the pc


class Check(NamedTuple):
    """What is wanted of a write: whether it is made (None where another one may hide it), its
    value, and its address or None."""

    made: bool | None
    value: int | None
    address: int | None = None


class State:
    """What a run has written: registers, custom registers."""

    def __init__(self, customs):
        self.x = [0] * 32
        self.customs = dict(customs)


class Step(NamedTuple):
    """A line of the run."""

    number: int
    pc: int
    word: int
    writes: dict

    def next_pc(self):
        return self.writes.get("pc", (self.pc + 4) % 2**32)


def steps_of(text):
    """The steps of a run, without its stop and its state."""
    found = []
    for line in text.splitlines():
        if not line.startswith("= "):
            break
        form = STEP.fullmatch(line)
        if not form:
            raise BadInput(f"{shown(line)} is no step of a run")
        writes = {}
        for part in form[4].split():
            name, _, value = part.partition("=")
            writes[name] = int(value, 16)
            if name[0] == "m":
                writes["store"] = (int(name[1:], 16), int(value, 16), len(value) // 2)
        found.append(Step(int(form[1]), int(form[2], 16), int(form[3], 16), writes))
    return found


def customs_of(text):
    """The custom registers of a state, by number."""
    forms = (CUSTOM_STATE.fullmatch(line) for line in text.splitlines())
    return {int(form[1]): int(form[2], 16) for form in forms if form}


# What a step wants of a behaviour


def kinds_of(module):
    return {it.kind for it in module.behaviour.operations} if module else set()


def input_value(it, step, state):
    """The value of a read, or None for a load."""
    kind = kind_name(it.kind)
    if kind == "RdCustReg":
        return state.customs[int(it.kind.partition(".")[2])]
    return {
        "RdInstr": step.word,
        "RdPC": step.pc,
        "RdRS1": state.x[step.word >> 15 & 31],
        "RdRS2": state.x[step.word >> 20 & 31],
    }.get(kind)


def check_of(it, step, others):
    """What is wanted of a write, where `others` are the kinds that other writers of the step have
    and that may hide it; None where nothing is known."""
    kind = kind_name(it.kind)
    if kind == "WrRD":
        name = f"x{step.word >> 7 & 31}"
        return None if name == "x0" else Check(name in step.writes, step.writes.get(name))
    if kind == "WrMem":
        address, value, _ = step.writes.get("store", (None, None, 0))
        return Check("store" in step.writes, value, address)
    if kind == "WrPC":
        if others.get("WrPC") == "above":
            return None
        hidden = "pc" not in step.writes or "WrPC" in others
        return Check(None if hidden else True, step.next_pc())
    name = f"c{it.kind.partition('.')[2]}"
    if name not in step.writes:
        return Check(False, None)
    if others.get(it.kind) == "above":
        return None
    return Check(None if it.kind in others else True, step.writes[name])


def others_of(module, modules, instruction, step):
    """The kinds that other behaviours of a step have: `above` where their write counts before that
    of the module, else `below`."""
    found = {}
    if module.behaviour.mode != "Always":
        for block in modules:
            if block.behaviour.mode == "Always":
                found.update(dict.fromkeys(kinds_of(block), "below"))
        return found
    later = False
    for block in modules:
        if block.behaviour.mode == "Always" and block is not module:
            found.update(dict.fromkeys(kinds_of(block), "above" if later else "below"))
        later = later or block is module
    found.update(dict.fromkeys(kinds_of(instruction), "above"))
    if instruction is None and step.word & 0x7F in JUMPS:
        found["WrPC"] = "above"
    return found


def instruction_of(word, listing, modules):
    """The module of the instruction that a word is, or None."""
    for it in listing.instructions:
        if word & it.mask == it.match:
            return next(module for module in modules if module.behaviour.name == it.name)
    return None


# The text of the bench


def name_of(module, port):
    return f"{module.behaviour.name}_{port}"


def declarations(module):
    """The signals of a module, and the module."""
    lines = []
    for port in module.ports[1:]:
        kind = "reg" if port.is_input else "wire"
        lines.append(f"  {kind} [{port.width - 1}:0] {name_of(module, port.name)};")
    links = [f".{port.name}({name_of(module, port.name)})" for port in module.ports[1:]]
    for it in module.behaviour.operations:
        if it.kind == "RdMem":
            lines.append(f"  reg [31:0] {name_of(module, f'place{it.number}')};")
            lines.append(f"  reg {name_of(module, f'loads{it.number}')};")
    ports = ", ".join([".clk(clk)", *links])
    return [*lines, f"  {module.name} {name_of(module, 'dut')}({ports});"]


def use_lines(module, step, state, others, stalls):
    """The statements of one use: time by time the inputs, the wanted outputs, and the edge that
    takes the use on. Inputs are unknown at all other times."""
    operations = {it.number: it for it in module.behaviour.operations}
    inputs = [it for it in module.ports if it.is_input and it.operation is not None]
    lines = [f"    // step {step.number} at {step.pc:08x}: {step.word:08x}, {module.name}"]
    lines.append(f"    step = {step.number};")
    last = max([module.last, *(it.time for it in inputs)])
    for time in range(FIRST, last + 1):
        for it in inputs:
            value = f"{it.width}'bx"
            if it.time == time:
                given = input_value(operations[it.operation], step, state)
                if given is None:
                    place, loads = (name_of(module, f"{w}{it.operation}") for w in PLACES)
                    value = f"{loads} ? loaded({place}) : 0"
                else:
                    value = f"{it.width}'h{given:x}"
            lines.append(f"    {name_of(module, it.name)} = {value};")
        lines.append("    #1;")
        for it in operations.values():
            if it.time == time:
                lines += check_lines(module, it, step, others)
        if time < module.last:
            # (some uses stay here for a while before they go on)
            stay = (step.number + time) % (stalls + 1)
            if stay:
                lines.append(f"    repeat ({stay}) begin #1 clk = 1; #1 clk = 0; end")
            enable = name_of(module, f"en{time}")
            lines.append(f"    {enable} = 1; #1 clk = 1; #1 clk = 0; {enable} = 0;")
    return lines


def check_lines(module, it, step, others):
    """The statements that compare the outputs of an operation."""
    kind = kind_name(it.kind)
    output = {part: name_of(module, f"out{it.number}_{part}") for part in "avc"}
    if kind == "RdMem":
        place, loads = (name_of(module, f"{word}{it.number}") for word in PLACES)
        return [f"    {place} = {output['a']};", f"    {loads} = {output['c']};"]
    if not kind.startswith("Wr"):
        return []
    check = check_of(it, step, others)
    if check is None:
        return []
    widths = {port.name: port.width for port in module.ports}
    lines = []
    if check.made is not None:
        lines.append(f'    check(128\'d{int(check.made)}, {output["c"]}, "{output["c"]}");')
    if check.made is False:
        return lines
    guard = "" if check.made else f"if ({output['c']} !== 1'b0) "
    width = widths[f"out{it.number}_v"]
    lines.append(
        f'    {guard}check(128\'h{check.value % 2**width:x}, {output["v"]}, "{output["v"]}");'
    )
    if check.address is not None:
        lines.append(f'    check(128\'h{check.address:x}, {output["a"]}, "{output["a"]}");')
    return lines


HEAD = """\
// A test bench that tools/user/ports.py made from a run one instruction at a time: each use of a
// module with its inputs and the outputs that are wanted. Every input is unknown but at its time.
module bench;
  reg clk;
  integer step, uses, checks, faults;
  reg [7:0] memory[0:1048575];
"""

TASKS = """\

  function [31:0] loaded(input [31:0] address);
    loaded = {
      memory[address[19:0] + 20'd3], memory[address[19:0] + 20'd2],
      memory[address[19:0] + 20'd1], memory[address[19:0]]
    };
  endfunction

  task check(input [127:0] wanted, input [127:0] found, input [639:0] port);
    begin
      checks = checks + 1;
      if (wanted !== found) begin
        faults = faults + 1;
        $display("step %0d: %0s is %0h in place of %0h", step, port, found, wanted);
      end
    end
  endtask

  initial begin
    clk = 0; uses = 0; checks = 0; faults = 0;
    for (step = 0; step < 1048576; step = step + 1) memory[step] = 8'd0;
"""

TAIL = """\
    $display("%0d uses, %0d checks, %0d faults", uses, checks, faults);
    $finish;
  end
endmodule
"""


def take_step(state, step):
    """The state behind a step, and the statements that store what it stored."""
    for name, value in step.writes.items():
        if re.fullmatch(r"x\d+", name):
            state.x[int(name[1:])] = value
        elif re.fullmatch(r"c\d+", name):
            state.customs[int(name[1:])] = value
    address, value, size = step.writes.get("store", (0, 0, 0))
    return [
        f"    memory[20'h{(address + at) % 2**20:05x}] = 8'h{value >> 8 * at & 255:02x};"
        for at in range(size)
    ]


def bench_of(modules, listing, start, text, stalls):
    """The test bench of a run: `start` is the run of no step, which has the first values."""
    state = State(customs_of(start))
    lines = [HEAD.rstrip("\n")]
    for module in modules:
        lines += declarations(module)
    lines.append(TASKS.rstrip("\n"))
    for module in modules:
        for port in module.ports[1:]:
            if port.operation is None:
                lines.append(f"    {name_of(module, port.name)} = 0;")
    for step in steps_of(text):
        instruction = instruction_of(step.word, listing, modules)
        used = [it for it in modules if it is instruction or it.behaviour.mode == "Always"]
        for module in used:
            others = others_of(module, modules, instruction, step)
            lines += use_lines(module, step, state, others, stalls)
            lines.append("    uses = uses + 1;")
        lines += take_step(state, step)
    return "\n".join(lines) + "\n" + TAIL
