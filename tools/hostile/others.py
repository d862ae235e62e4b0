"""Hostile texts of datasheets, images, waits, interrupt lines, sources, reports and Verilog."""
from hostile.texts import MOST, Text, filled, long_name_of, name_of, numbered, padded

# Datasheets

SHEET = b'core = "five"\nperiod = 1000\n'
KINDS = (
    "RdInstr RdRS1 RdRS2 RdPC RdCustReg RdMem WrRD WrPC WrCustReg WrMem add sub mul and or xor not neg "
    "shl shr eq ne lt le gt ge land lor lnot concat range cast mux rom"
).split()
ACCEPTED = "longnail report"
EACH_KIND = SHEET + b"[delay]\n" + b"".join(b"%s = 1\n" % it.encode() for it in KINDS)

SHEETS = [
    Text("one comment", ACCEPTED, lambda: filled(SHEET + b"#", b"x")),
    Text("comments", ACCEPTED, lambda: filled(SHEET, b"#\n")),
    Text("line feeds", ACCEPTED, lambda: padded(SHEET, b"\n")),
    Text("spaces", ACCEPTED, lambda: padded(SHEET)),
    Text("each kind, and spaces", ACCEPTED, lambda: padded(EACH_KIND)),
    Text("a period of spaces", ACCEPTED, lambda: filled(b'core = "five"\nperiod = ', b" ", b"1000\n")),
    Text("a period of digits", "refused Sheet", lambda: filled(b'core = "five"\nperiod = 1', b"0", b"\n")),
    Text("a period of hexadecimal zeros", ACCEPTED, lambda: filled(b'core = "five"\nperiod = 0x', b"0", b"3e8\n")),
    Text("a period of marks", ACCEPTED, lambda: filled(b'core = "five"\nperiod = 0x0', b"_0", b"_3e8\n")),
    Text("a period that is a fraction of digits", "refused Sheet Number period", lambda: filled(b'core = "five"\nperiod = 1.', b"0", b"1\n")),
    Text("a period that is a power of digits", "refused Sheet", lambda: filled(b'core = "five"\nperiod = 1e', b"9", b"\n")),
    Text("one core", "refused Sheet Core core", lambda: filled(b'core = "', b"five", b'"\n')),
    Text("a core of escapes", "refused Sheet Core core", lambda: filled(b'core = "', b"\\u0066", b'"\n')),
    Text("a core of many lines", "refused Sheet Core core", lambda: filled(b'core = """', b"five\\\n", b'"""\n')),
    Text("an open string", "refused Sheet Toml -", lambda: filled(b'core = "', b"f")),
    Text("an open string of many lines", "refused Sheet Toml -", lambda: filled(b"core = '''", b"f\n")),
    Text("one key", "refused Sheet Toml -", lambda: b"k" * MOST),
    Text("one key with a value", "refused Sheet Key k", lambda: filled(SHEET, b"k", b" = 1\n")),
    Text("one key with points", "refused Sheet Toml -", lambda: filled(SHEET + b"a", b".a", b" = 1\n"), deep=True),
    Text("keys with points that go on", "refused Sheet Key", lambda: numbered(SHEET, lambda n: f"a.{'a.' * 20}{name_of(n)} = 1\n")),
    Text("one header with points", "refused Sheet Toml -", lambda: filled(SHEET + b"[a", b".a", b"]\n"), deep=True),
    Text("headers within each other", "refused Sheet Toml -", lambda: b"".join([SHEET] + [b"[" + b".".join([b"a"] * n) + b"]\n" for n in range(1, 1_000)]), deep=True),
    Text("open brackets", "refused Sheet Toml -", lambda: filled(SHEET + b"a = ", b"["), deep=True),
    Text("arrays within each other", "refused Sheet", lambda: SHEET + b"a = " + b"[" * 520_000 + b"]" * 520_000, deep=True),
    Text("tables within each other", "refused Sheet", lambda: SHEET + b"a = " + b"{a=" * 250_000 + b"1" + b"}" * 250_000, deep=True),
    Text("64 arrays within each other", "refused Sheet Key a", lambda: SHEET + b"a = " + b"[" * 64 + b"]" * 64, deep=True),
    Text("an array of numbers", "refused Sheet Key a", lambda: filled(SHEET + b"a = [", b"1,", b"]\n")),
    Text("a window of numbers", "refused Sheet Number WrRD", lambda: filled(SHEET + b"[window]\nWrRD = [", b"2,", b"]\n")),
    Text("a table of keys", "refused Sheet Key a", lambda: numbered(SHEET + b"a = {", lambda n: f"{name_of(n)}=1", b"}\n", between=b",")),
    Text("arrays of tables", "refused Sheet Key a", lambda: filled(SHEET, b"[[a]]\n")),
    Text("headers", "refused Sheet Key", lambda: numbered(SHEET, lambda n: f"[{name_of(n)}]\n")),
    Text("headers of one name", "refused Sheet Toml -", lambda: filled(SHEET, b"[a]\n")),
    Text("keys at the top", "refused Sheet Key", lambda: numbered(SHEET, lambda n: f"{name_of(n * 7_919 % 100_003)}=1\n", count=100_003)),
    Text("delays of no kind", "refused Sheet Kind", lambda: numbered(SHEET + b"[delay]\n", lambda n: f"{name_of(n * 7_919 % 100_003)}=1\n", count=100_003)),
    Text("delays of one kind", "refused Sheet Toml -", lambda: filled(SHEET + b"[delay]\n", b"add = 1\n")),
    Text("keys of 64 bytes", "refused Sheet Key", lambda: numbered(SHEET, lambda n: f"{long_name_of(n)}=1\n")),
    Text("a delay of commas", "refused Sheet Toml -", lambda: filled(SHEET + b"[delay]\nadd = ", b",")),
    Text("a date of digits", "refused Sheet", lambda: filled(SHEET + b"a = 2000-01-01T00:00:00.", b"0", b"1Z\n")),
    Text("bytes 255", "refused Sheet Utf8 -", lambda: b"\xff" * MOST),
    Text("a byte 255 at the end", "refused Sheet Utf8 -", lambda: padded(SHEET)[:-1] + b"\xff"),
    Text("zero bytes", "refused Sheet Toml -", lambda: b"\0" * MOST),
    Text("characters of four bytes", "refused Sheet Toml -", lambda: "\U0001f600".encode() * (MOST // 4)),
    Text("a comment of such characters", ACCEPTED, lambda: filled(SHEET + b"#", "\U0001f600".encode())),
]

# Images

WORD = b"00000013\n"
RUN = "0 0@00000000 - -"
EMPTY = "0 - - - stop Fetch"

IMAGES = [
    Text("65,536 words", RUN, lambda: WORD * 65_536),
    Text("65,537 words", "refused Image 65537", lambda: WORD * 65_537),
    Text("words to the file's end", "refused Image 65537", lambda: filled(b"", WORD)),
    Text("65,536 words among blanks", RUN, lambda: (b"   00000013\t \t\r\n") * 65_536),
    Text("line feeds", EMPTY, lambda: b"\n" * MOST),
    Text("spaces", EMPTY, lambda: b" " * MOST),
    Text("carriage returns", EMPTY, lambda: b"\r" * MOST),
    Text("comments", EMPTY, lambda: filled(b"", b"#\n")),
    Text("slashed comments", EMPTY, lambda: filled(b"", b"//\n")),
    Text("one comment", EMPTY, lambda: filled(b"#", b"0")),
    Text("one word of digits", "refused Image 1", lambda: b"0" * MOST),
    Text("words of nine digits", "refused Image 1", lambda: filled(b"", b"000000013\n")),
    Text("a bad word at the end", "refused Image", lambda: b"\n" * (MOST - 2) + b"0\n"),
    Text("bytes 255", "refused Image 1", lambda: b"\xff" * MOST),
    Text("zero bytes", "refused Image 1", lambda: b"\0" * MOST),
]

# Waits and interrupt lines

WAITS = [
    Text("65,536 numbers", RUN, lambda: padded(b"255 " * 65_536)),
    Text("65,536 numbers of three digits apart", RUN, lambda: b"000            \n" * 65_536),
    Text("65,537 numbers", "refused Waits 65536", lambda: b"0 " * 65_537),
    Text("numbers to the file's end", "refused Waits 65536", lambda: filled(b"", b"0 ")),
    Text("spaces", RUN, lambda: b" " * MOST),
    Text("line feeds", RUN, lambda: b"\n" * MOST),
    Text("one number of zeros", "refused Waits 0", lambda: b"0" * MOST),
    Text("numbers of four digits", "refused Waits 0", lambda: filled(b"", b"0000 ")),
    Text("bytes 255", "refused Waits 0", lambda: b"\xff" * MOST),
    Text("zero bytes", "refused Waits 0", lambda: b"\0" * MOST),
]

LINES = [
    Text("4,096 numbers", "0 0@00000000 - - f0", lambda: padded(b" ".join(b"%d" % (n * 48) for n in range(4_096)))),
    Text("4,096 numbers far apart", "0 0@00000000", lambda: b"".join(b"%-255d\n" % (n * 48) for n in range(4_096))),
    Text("4,097 numbers", "refused Lines 4096", lambda: b" ".join(b"%d" % n for n in range(4_097))),
    Text("numbers to the file's end", "refused Lines 4096", lambda: b" ".join(b"%d" % n for n in range(150_000))),
    Text("equal numbers", "refused Lines 1", lambda: filled(b"", b"0 ")),
    Text("spaces", "0 0@00000000 - -", lambda: b" " * MOST),
    Text("one number of zeros", "refused Lines 0", lambda: b"0" * MOST),
    Text("bytes 255", "refused Lines 0", lambda: b"\xff" * MOST),
    Text("zero bytes", "refused Lines 0", lambda: b"\0" * MOST),
]

# Sources

NOP = "00000013"

SOURCES = [
    Text("65,536 short lines", NOP, lambda: b"nop\n" * 65_536),
    Text("65,537 lines", "refused Source Size 65537", lambda: b"nop\n" * 65_537),
    Text("lines to the file's end", "refused Source Size 65537", lambda: filled(b"", b"nop\n")),
    Text("line feeds", "", lambda: b"\n" * MOST),
    Text("spaces", "", lambda: b" " * MOST),
    Text("comments", "", lambda: filled(b"", b"#\n")),
    Text("one comment", "", lambda: filled(b"#", b"x")),
    Text("labels", "", lambda: numbered(b"", lambda n: f"{name_of(n)}:\n")),
    Text("labels and instructions", NOP, lambda: numbered(b"", lambda n: f"{name_of(n)}:nop\n", count=65_536)),
    Text("labels of 64 bytes", "", lambda: numbered(b"", lambda n: f"{long_name_of(n)}:\n")),
    Text("jumps to the last label", "", lambda: numbered(b"", lambda n: f"{name_of(n)}:j n{'a' * 3}\n", count=60_000)),
    Text("jumps to labels before them", "0000006f", lambda: numbered(b"", lambda n: f"{name_of(n)}:j {name_of(n)}\n", count=65_536)),
    Text("one label twice, at the end", "refused Source Label", lambda: numbered(b"", lambda n: f"{name_of(n)}:\n", b"na:\n", count=150_000)),
    Text("a label that stands nowhere, at the end", "refused Source Label", lambda: numbered(b"", lambda n: f"{name_of(n)}:\n", b"j nowhere\n", count=150_000)),
    Text("one label", "refused Source Line 1", lambda: filled(b"", b"n", b":")),
    Text("labels on one line", "refused Source Line 1", lambda: filled(b"", b"n:")),
    Text("one instruction's name", "refused Source Line 1", lambda: b"n" * MOST),
    Text("a number of zeros", "00500093", lambda: filled(b"addi x1, x0, ", b"0", b"5\n")),
    Text("a hexadecimal number of zeros", "00500093", lambda: filled(b"addi x1, x0, 0x", b"0", b"5\n")),
    Text("a number of nines", "refused Source Reach 1", lambda: filled(b"addi x1, x0, ", b"9", b"\n")),
    Text("a number below all", "refused Source Reach 1", lambda: filled(b".word -", b"9", b"\n")),
    Text("spaces within an instruction", "00500093", lambda: filled(b"addi x1,", b" ", b"x0, 5\n")),
    Text("commas", "refused Source Line 1", lambda: filled(b"addi ", b",")),
    Text("operands", "refused Source Line 1", lambda: filled(b"addi x1", b", x1")),
    Text("brackets", "refused Source Line 1", lambda: filled(b"lw x1, ", b"("), deep=True),
    Text("signs", "refused Source Line 1", lambda: filled(b"addi x1, x0, ", b"-"), deep=True),
    Text("bad lines", "refused Source Line 1", lambda: filled(b"", b"?\n")),
    Text("a bad line at the end", "refused Source Line", lambda: b"\n" * (MOST - 2) + b"?\n"),
    Text("bytes 255", "refused Source Line 1", lambda: b"\xff" * MOST),
    Text("zero bytes", "refused Source Line 1", lambda: b"\0" * MOST),
]

# Traces, of the program 00500093 (an addition) on the core of three stages

ROW = b"0 0@00000000 - -\n"

TRACES = [
    Text("line feeds", "refused Trace 1 Line", lambda: b"\n" * MOST),
    Text("spaces", "refused Trace 1 Line", lambda: b" " * MOST),
    Text("one row number", "refused Trace 1 Line", lambda: b"0" * MOST),
    Text("rows of number 0", "refused Trace 2 Line", lambda: filled(b"", ROW)),
    Text("empty rows", "refused Trace", lambda: numbered(b"", lambda n: f"{n} - - -\n", b"state\npc 00000000\n")),
    Text("rows of one instruction", "refused Trace", lambda: numbered(b"", lambda n: f"{n} 0@00000000 - -\n", b"state\npc 00000000\n")),
    Text("rows without an end", "refused Trace", lambda: numbered(b"", lambda n: f"{n} - - -\n")),
    Text("serials of digits", "refused Trace 1 Line", lambda: filled(b"0 ", b"1", b"@00000000 - -\n")),
    Text("a row of flushed serials", "refused Trace", lambda: numbered(b"0 0@00000000 - -", lambda n: f" f{n}", b"\nstate\npc 00000000\n")),
    Text("a row of fields", "refused Trace 1 Line", lambda: filled(b"0", b" -")),
    Text("a retirement with writes", "refused Trace", lambda: numbered(ROW + b"1 - - 0@00000000 r0\n= 0 00000000 00500093", lambda n: f" m{n:08x}=00", b"\nstate\npc 00000000\n")),
    Text("a state of memory", "refused Trace", lambda: numbered(b"state\npc 00000000\n", lambda n: f"m {0x80000000 + 4 * n:08x} 00000001\n")),
    Text("states", "refused Trace 2 Line", lambda: filled(b"", b"state\n")),
    Text("one outstanding line", "refused Trace", lambda: numbered(b"state\npc 00000000\n", lambda n: f"o {n} x1\n")),
    Text("holds within brackets", "refused Trace 1 Line", lambda: filled(b"0 0@00000000/Operand", b"(")),
    Text("bytes 255", "refused Trace 1 Line", lambda: b"\xff" * MOST),
    Text("zero bytes", "refused Trace 1 Line", lambda: b"\0" * MOST),
]

# Reports

REPORT = b"longnail report 1\nperiod 1000\n"
NONE = REPORT + b"behaviour n none\n"


def operation(number, kind="add", delay=1, time=" time 0"):
    return f"op {number} {kind} delay {delay} latency 0 early 0 late 9{time}\n"


def chained(count, cycle):
    """Operations of which each goes to the next, and a cycle over them all."""
    ops = "".join(operation(n, delay=1_000, time="") for n in range(count))
    edges = "".join(f"edge {n} {n + 1}\n" for n in range(count - 1))
    return NONE + (ops + edges + cycle).encode() + b"end\n"


def long_chain(count):
    return chained(count, "cycle chain " + " ".join(map(str, range(count))) + f"\ncycle late {count - 1}\ncycle early 0\n")


def long_chains(count):
    """The chain over all operations, again and again, as far as the file goes."""
    line = "cycle chain " + " ".join(map(str, range(count))) + "\n"
    rest = MOST - len(chained(count, ""))
    return chained(count, line * (rest // len(line)))


def dense(count):
    """Each operation goes to all later ones."""
    ops = "".join(operation(n) for n in range(count))
    edges = "".join(f"edge {i} {j}\n" for j in range(count) for i in range(j))
    return REPORT + b"behaviour n Tight\n" + (ops + edges + "cost 0\n").encode() + b"end\n"


REPORTS = [
    Text("line feeds", "refused Certificate 1 Line", lambda: b"\n" * MOST),
    Text("no behaviour, and line feeds", "refused Certificate 3 Line", lambda: padded(REPORT, b"\n")),
    Text("behaviours without operations", "refused Certificate", lambda: filled(REPORT, b"behaviour n none\ncycle early 0\nend\n")),
    Text("operations of no schedule", "refused Certificate", lambda: numbered(NONE, lambda n: operation(n, time=""), b"cycle early 0\nend\n")),
    Text("operations without edges", "refused Certificate", lambda: numbered(REPORT + b"behaviour n Tight\n", operation, b"cost 0\nend\n")),
    Text("a chain over all operations", "refused Certificate", lambda: long_chain(14_000)),
    Text("chains over 1,000 operations", "refused Certificate", lambda: long_chains(1_000)),
    Text("chains over 8,000 operations", "refused Certificate", lambda: long_chains(8_000)),
    Text("edges between all operations", "refused Certificate", lambda: dense(400)),
    Text("flows of one bound", "refused Certificate", lambda: filled(REPORT + b"behaviour n Tight\n" + operation(0).encode() + b"cost 0\n", b"flow 1 early 0\n", b"end\n")),
    Text("flows of one chain", "refused Certificate", lambda: filled(REPORT + b"behaviour n Tight\n" + operation(0, delay=1_001).encode() + b"cost 0\n", b"flow 1 chain 0\n", b"end\n")),
    Text("one amount of digits", "refused Certificate", lambda: filled(REPORT + b"behaviour n Tight\n" + operation(0).encode() + b"cost 0\nflow 1", b"0", b" early 0\nend\n")),
    Text("one period of digits", "refused Certificate 2 Line", lambda: filled(b"longnail report 1\nperiod 1", b"0", b"\n")),
    Text("one chain of a number", "refused Certificate", lambda: filled(NONE + operation(0, time="").encode() + b"cycle chain", b" 0", b"\nend\n")),
    Text("one name", "refused Certificate 3 Line", lambda: filled(REPORT + b"behaviour ", b"n", b" none\ncycle early 0\nend\n")),
    Text("a refused line", "refused Certificate 2 Line", lambda: filled(b"refused ", b"x", b"\n")),
    Text("bytes 255", "refused Certificate 1 Line", lambda: b"\xff" * MOST),
    Text("zero bytes", "refused Certificate 1 Line", lambda: b"\0" * MOST),
]

# Verilog, for the program `verilog_cases`


def module(items, name=b"m_", ports=b"clk", declared=b""):
    return b"module %s(%s);\n  input clk;\n%s%sendmodule\n" % (name, ports, declared, items)


def cells(count, order, closed=False):
    """A chain of inverters, its lines in an order of their numbers."""
    wires = "".join(f"  wire [31:0] n{k};\n" for k in range(count))
    first = f"n{count - 1}" if closed else "i_"
    lines = "".join(f"  assign n{k} = ~{f'n{k - 1}' if k else first};\n" for k in order(range(count)))
    return module((wires + lines).encode(), ports=b"clk, i_", declared=b"  input [31:0] i_;\n")


def bank(count):
    """A module of so many registers, each of which takes the one before."""
    regs = "".join(f"  reg [31:0] r{k};\n" for k in range(count))
    moves = "".join(f"    if (e_) r{k} <= {f'r{k - 1}' if k else 'i_'};\n" for k in range(count))
    text = f"{regs}  always @(posedge clk) begin\n{moves}  end\n"
    return module(text.encode(), ports=b"clk, e_, i_", declared=b"  input [0:0] e_;\n  input [31:0] i_;\n")


def inputs(count):
    names = ", ".join(f"i{k}" for k in range(count))
    lines = "".join(f"  input [31:0] i{k};\n" for k in range(count))
    return module(b"", ports=b"clk, " + names.encode(), declared=lines.encode())


MODULES = [
    Text("spaces", "nets 0", lambda: b" " * MOST),
    Text("one comment", "nets 0", lambda: filled(b"/*", b"x", b"*/")),
    Text("comments", "nets 0", lambda: filled(b"", b"/**/")),
    Text("an open comment", "at 0", lambda: filled(b"/*", b"x")),
    Text("semicolons", "at 0", lambda: b";" * MOST),
    Text("one name", "at 0", lambda: b"n" * MOST),
    Text("one number", "at 54", lambda: filled(b"module m_(clk);\ninput clk;\nwire [0:0] n0;\nassign n0 = 1'h", b"0", b";\nendmodule\n")),
    Text("one run of digits", "at 0", lambda: b"1" * MOST),
    Text("open brackets", "at 10", lambda: filled(b"module m_", b"("), deep=True),
    Text("open braces", "at 56", lambda: filled(module(b"")[:-11] + b"wire [0:0] n0;\nassign n0 = ", b"{"), deep=True),
    Text("signs", "at 56", lambda: filled(module(b"")[:-11] + b"wire [0:0] n0;\nassign n0 = ", b"~"), deep=True),
    Text("modules", "nets 24643 as printed", lambda: numbered(b"", lambda n: module(b"", b"m%d" % n).decode())),
    Text("modules of one name", "twice m_", lambda: filled(b"", module(b""))),
    Text("inputs", "nets 1 as printed", lambda: inputs(34_000)),
    Text("inputs of one name", "at 1048575", lambda: filled(b"module m_(clk", b",i_", b");")),
    Text("cells in order", "nets 1 as printed", lambda: cells(19_000, list)),
    Text("cells from the last to the first", "nets 1", lambda: cells(19_000, reversed)),
    Text("cells that close a loop", "loop n0", lambda: cells(19_000, list, closed=True)),
    Text("cells from the last to the first that close a loop", "loop n18999", lambda: cells(19_000, reversed, closed=True)),
    Text("registers", "nets 1 as printed", lambda: bank(19_000)),
    Text("bytes 255", "at 0", lambda: b"\xff" * MOST),
    Text("zero bytes", "at 0", lambda: b"\0" * MOST),
]
