#!/usr/bin/env python3
"""Makes stdin and stdout of crates/command_cases: the commands of docs/TUTORIAL.md and the reports of docs/SCHEDULES.md (tools/commands/tutorial, schedules), programs on pipelines with extensions (tools/commands/runs; on cores that forward and guess, tools/commands/forwards) and of the base set
alone on each core of a datasheet (tools/commands/base), whose answers come from a pipeline in another language written from the rules, and, here below, commands on files, with reads and writes
that fail, and the answers by hand.
"""
import re
from pathlib import Path

END = "\x1e"
FOLDER = Path(__file__).resolve().parent.parent / "crates" / "command_cases"
parts, answers = [], []


def file(name, text):
    parts.append(f"file {name}\n{text}")


def many(name, count, text):
    parts.append(f"many {name} {count}\n{text}")


def due(words, status, text, faults=None):
    """A command, and what it writes with its exit status; `faults` are the failing read, the bytes of a read, the failing write and the bytes of a write."""
    line = "faults " + " ".join(str(it) for it in faults) + "\n" if faults else ""
    parts.append(line + words)
    answers.append(f"{text}status {status}")


# Five and seven are added, then a break.
file("ADD", "00500093\n00700113\n002081b3\n00100073\n")
ADD_RUN = """0 0@00000000 - -
1 1@00000004 0@00000000 -
2 2@00000008 1@00000004 0@00000000 r0
= 0 00000000 00500093 x1=00000005
3 3@0000000c/Behind 2@00000008/Operand(x2,1) 1@00000004 r1
= 1 00000004 00700113 x2=00000007
4 3@0000000c 2@00000008 -
5 - 3@0000000c 2@00000008 r2 stop Ebreak
= 2 00000008 002081b3 x3=0000000c
state
pc 0000000c
x1 00000005
x2 00000007
x3 0000000c
"""
EMPTY_RUN = "0 - - - stop Fetch\nstate\npc 00000000\n"
NO_CYCLE = "state\npc 00000000\n"

due("run ADD 20", 0, ADD_RUN)
# each write of ten bytes that fails leaves what was written before it, and one behind the last is never made
for n in range(len(ADD_RUN) // 10 + 3):
    if 10 * n < len(ADD_RUN):
        due("run ADD 20", 5, ADD_RUN[: 10 * n], ("-", 4096, n, 10))
    else:
        due("run ADD 20", 0, ADD_RUN, ("-", 4096, n, 10))
# thirty-six bytes take six reads of seven, and one more sees the end
for n in range(9):
    due("run ADD 20", 4 if n < 7 else 0, "refused ReadFault ADD\n" if n < 7 else ADD_RUN, (n, 7, "-", 4096))
due("run LOST 5", 4, "refused ReadFault LOST\n")
# a refusal that cannot be written
due("run", 5, "", ("-", 7, 0, 10))

file("EMPTY", "")
for words in ["-", "run", "run EMPTY", "walk EMPTY 5", "run EMPTY 5 5", "run run EMPTY 5", "certify", "certify EMPTY EMPTY", "Certify EMPTY", "certify EMPTY 5 5", "certif EMPTY", "5 EMPTY run"]:
    due(words, 2, "refused Usage\n")
for cycles in ["", "+5", "-5", "5\t", "\t5", "0x5", "5_0", "five", "00000000005", "200001", "4294967297", "9999999999"]:
    due(f"run EMPTY {cycles}", 2, "refused Usage\n")
for cycles in ["5", "05", "0000000005", "200000"]:
    due(f"run EMPTY {cycles}", 0, EMPTY_RUN)

# lines of an image
for n, text in enumerate(["00100073", "00100073\n", "# a note\n\n // another\r\n\t00100073 \r\n", "\n\n", "00A00093", "00a00093"]):
    file(f"I{n}", text)
    due(f"run I{n} 0", 0, NO_CYCLE)
# a word with seven digits, with nine, with a letter that is no digit, with a space, a prefix, and a lone slash
for n, text in enumerate(["\n0010007\n", "#\n001000733\n", "//\n0010007g", "00100073\n0010 0073", "\n0x100073", "\n/"]):
    file(f"J{n}", text)
    due(f"run J{n} 0", 9, "refused Image 2\n")
# two words between lines that are skipped
file("SKIPPED", "# adds\n\n  00500093\t\n// again\nFFf00113")
due("run SKIPPED 2", 0, "0 0@00000000 - -\n1 1@00000004 0@00000000 -\nstate\npc 00000000\n")

# the greatest file, and the greatest image
many("LINES", 1048576, "\n")
many("LINES1", 1048577, "\n")
many("WORDS", 65536, "00000013\n")
many("WORDS1", 65537, "00000013\n")
due("run LINES 1", 0, EMPTY_RUN)
due("run LINES1 1", 6, "refused TooLong LINES1\n")
due("run WORDS 0", 0, NO_CYCLE)
due("run WORDS1 0", 9, "refused Image 65537\n")

# reports
HEAD = "longnail report 1\nperiod 1000\n"
READ = "behaviour read InPipeline\nop 0 RdPC delay 0 latency 0 early 1 late 2 time 1\n"
file("R0", HEAD)
file("R1", HEAD + READ + "cost 1\nflow 1 early 0\nend\n")
for name in ["R0", "R1"]:
    due(f"certify {name}", 0, "yes\n")
for n, (report, line) in enumerate([
    ("", "1 Line"),
    ("longnail report 1\nperiod 0\n", "2 Line"),
    ("refused x\nlongnail report 1\nperiod 9\nend\n", "4 Line"),
    (HEAD + READ + "cost 2\nflow 1 early 0\nend\n", "5 Value"),
]):
    file(f"S{n}", report)
    due(f"certify S{n}", 11, f"refused Certificate {line}\n")
due("certify LINES", 11, "refused Certificate 1 Line\n")
due("certify LINES1", 6, "refused TooLong LINES1\n")
# thirty bytes take five reads of seven, and one more sees the end
for n in range(8):
    due("certify R0", 4 if n < 6 else 0, "refused ReadFault R0\n" if n < 6 else "yes\n", (n, 7, "-", 4096))
due("certify LOST", 4, "refused ReadFault LOST\n")
for n in range(6):
    due("certify R0", 5 if n < 4 else 0, "yes\n"[:n] if n < 4 else "yes\n", ("-", 4096, n, 1))

# an addition whose sum is wider than a register, and each front of its text
ADDITION = "InstructionSet AddX extends RV32I {\n  instructions {\n    addx {\n      encoding: 7'd0 :: rs2[4:0] :: rs1[4:0] :: 3'd0 :: rd[4:0] :: 7'b0001011;\n      behavior: X[rd] = (unsigned<32>)(X[rs1] + X[rs2]);\n    }\n  }\n}"
file("ADDX", ADDITION)
due("check ADDX", 0, "set AddX\ninstruction addx mask fe00707f match 0000000b\npiece rs2 4 0 at 20\npiece rs1 4 0 at 15\npiece rd 4 0 at 7\n")
TOKENS = [(it.start(), it.end(), it[0]) for it in re.finditer(r"[0-9]+'[bd][0-9]+|[0-9]+|[A-Za-z_][A-Za-z0-9_]*|::|[^\sA-Za-z0-9_]", ADDITION)]
# words that no name may stand for where they stand
FIXED = {"InstructionSet", "extends", "RV32I", "instructions", "encoding", "behavior"}


def refusal_of_front(end):
    """What is due of the text up to this byte: the token that is cut is none, is another one than the text wants, or would do, so that the text ends too early."""
    for start, stop, token in TOKENS:
        cut = token[: end - start]
        if start < end < stop:
            if re.fullmatch(r"[0-9]+'[bd]?", cut):
                return f"BadNumber {start} {start}"
            if token in FIXED or token == "::" or ("'" in token and "'" not in cut):
                return f"At {start} {end}"
    return f"At {end} {end}"


for end in range(len(ADDITION)):
    file(f"F{end}", ADDITION[:end])
    due(f"check F{end}", 7, f"refused Extension {refusal_of_front(end)}\n")
for n, (text, line) in enumerate([("/*", "Unclosed 0 0"), ("InstructionSet Two extends RV32I { } }", "At 37 38")]):
    file(f"G{n}", text)
    due(f"check G{n}", 7, f"refused Extension {line}\n")
many("SPACES", 1048576, " ")
many("SPACES1", 1048577, " ")
due("check SPACES", 7, "refused Extension At 1048576 1048576\n")
due("check SPACES1", 6, "refused TooLong SPACES1\n")

# long texts: a comment, and 150,000 tokens, of which the first one begins no text
many("COMMENT", 1048576, "/")
due("check COMMENT", 7, "refused Extension At 1048576 1048576\n")
many("TOKENS", 37500, "x + 10; ")
due("check TOKENS", 7, "refused Extension At 0 1\n")

# a product that is as wide as both registers, cut: scheduled, and without a schedule; each report is certified, and its flow or cycle is of the kind that the check accepts
file("MULX", "InstructionSet MulX extends RV32I { instructions { mulx { encoding: 7'd0 :: rs2[4:0] :: rs1[4:0] :: 3'd0 :: rd[4:0] :: 7'b0001011; behavior: X[rd] = (unsigned<32>)(X[rs1] * X[rs2]); } } }")
file("FIVE", 'core = "five"\nperiod = 1000\n[delay]\nmul = 600\n')
file("SLOW", 'core = "five"\nperiod = 1000\n[delay]\nmul = 1200\n')
LINES = """op 0 RdRS1 delay 0 latency 0 early 1 late 2 time 1
op 1 RdRS2 delay 0 latency 0 early 1 late 2 time 1
op 2 mul delay 600 latency 0 early 1 late 64 time 1
op 3 cast delay 0 latency 0 early 1 late 64 time 1
op 4 WrRD delay 0 latency 0 early 2 late 4 time 2
edge 0 2
edge 1 2
edge 2 3
edge 3 4
cost 7
"""
FLOW = FLOW_OF_PRODUCT = "flow 3 early 0\nflow 2 early 1\n"
NONE = """refused NoSchedule mulx
longnail report 1
period 1000
behaviour mulx none
"""
for n, (sheet, line) in enumerate([("core =", "Toml -"), ("period = 1000\n", "Core core"), ('core = "five"\n', "Number period"), ('core = "five"\nperiod = 1000\n[window]\nWrRD = [1, 4]\n', "Window WrRD"), ('core = "five"\nperiod = 1000\nlifetime = "bits"\n[delay]\nadd = -1\n', "Number lifetime")]):
    file(f"T{n}", sheet)
    due(f"schedule MULX T{n}", 8, f"refused Sheet {line}\n")
parts.append("byte NOTEXT 255")
due("schedule MULX NOTEXT", 8, "refused Sheet Utf8 -\n")
due("schedule EMPTY EMPTY", 7, "refused Extension At 0 0\n")

# sweeps: reports with the least period, twice and four times as much, and the cycle of one less; a block that fits with no period; and each refusal
FLOW_OF_SWEEP = "flow 2 early 2\nflow 1 early 3\nflow 2 early 4\n"
UNTIMED = re.sub(" time .", "", LINES[: LINES.index("cost")]).replace("early 2 late 4", "early 2 late 64")


def swept(least, delay):
    """The sweep of the product with this delay, whose schedule is the same with each of these periods."""
    text = f"sweep mulx least {least}\n"
    for period in [least, 2 * least, 4 * least]:
        if period <= 1000000:
            text += f"longnail report 1\nperiod {period}\nbehaviour mulx InPipeline\n{LINES}{FLOW_OF_SWEEP}end\n"
    text += f"longnail report 1\nperiod {least - 1}\nbehaviour mulx none\n{UNTIMED}cycle chain 2\nend\n" if least > 1 else ""
    return text.replace("delay 600", f"delay {delay}")


due("sweep MULX FIVE", 0, swept(600, 600))
due("sweep MULX SLOW", 0, swept(1200, 1200))
for n, delay in enumerate([0, 1, 2, 250000, 250001, 500001, 1000000]):
    file(f"D{n}", f'core = "five"\nperiod = 7\n[delay]\nmul = {delay}\n')
    due(f"sweep MULX D{n}", 0, swept(max(1, delay), delay))
# two reads of a register that are summed twice in the one stage of a block
file("BLOCKS", "InstructionSet Twice extends RV32I { architectural_state { register unsigned<32> A; } always { twice { A = (unsigned<32>)((unsigned<32>)(A * A) * A); } } }")
file("D7", 'core = "five"\nperiod = 7\n[delay]\nmul = 500001\n')
due("sweep BLOCKS D7", 0, """sweep twice none
longnail report 1
period 1000000
behaviour twice none
op 0 RdCustReg.0 delay 0 latency 0 early 2 late 2
op 1 mul delay 500001 latency 0 early 2 late 2
op 2 cast delay 0 latency 0 early 2 late 2
op 3 mul delay 500001 latency 0 early 2 late 2
op 4 cast delay 0 latency 0 early 2 late 2
op 5 WrCustReg.0 delay 0 latency 0 early 2 late 2
edge 0 1
edge 1 2
edge 0 3
edge 2 3
edge 3 4
edge 4 5
cycle early 0
cycle chain 0 1 2 3
cycle late 3
end
""")
# each of two behaviours has its sweep, though the first has no schedule with the datasheet's period; one with 257 operations is refused
LARGE = "encoding: 7'd1 :: rs2[4:0] :: rs1[4:0] :: 3'd0 :: rd[4:0] :: 7'b0001011; behavior: { unsigned<32> a = X[rs1] ^ X[rs2]; for (int i = 0; i < 126; i += 1) a = a ^ X[rs1]; for (int i = 0; i < 127; i += 1) a = a ^ X[rs1]; X[rd] = a; }"
file("LARGE", "InstructionSet Large extends RV32I { instructions { mulx { encoding: 7'd0 :: rs2[4:0] :: rs1[4:0] :: 3'd0 :: rd[4:0] :: 7'b0001011; behavior: X[rd] = (unsigned<32>)(X[rs1] * X[rs2]); } large { " + LARGE + " } } }")
due("sweep LARGE SLOW", 7, "refused Extension TooManyOps large\n")
due("sweep LARGE NOTEXT", 8, "refused Sheet Utf8 -\n")
for words in ["sweep", "sweep MULX", "sweep MULX FIVE FIVE", "swee MULX FIVE", "Sweep MULX FIVE", "sweep MULX FIVE 5"]:
    due(words, 2, "refused Usage\n")
due("sweep LOST FIVE", 4, "refused ReadFault LOST\n")
due("sweep MULX LOST", 4, "refused ReadFault LOST\n")
due("sweep LINES1 LOST", 6, "refused TooLong LINES1\n")
due("sweep MULX LINES1", 6, "refused TooLong LINES1\n")
due("sweep EMPTY LOST", 7, "refused Extension At 0 0\n")
for n, line in enumerate(["Toml -", "Core core", "Number period", "Window WrRD", "Number lifetime"]):
    due(f"sweep MULX T{n}", 8, f"refused Sheet {line}\n")
# writes of a hundred bytes
SWEPT = swept(600, 600)
for n in range(0, len(SWEPT) // 100 + 1, 4):
    due("sweep MULX FIVE", 5, SWEPT[: 100 * n], ("-", 4096, n, 100))

# drawn runs, by drawn_peer.py and elsewhere: of the base set alone, and with two sums that are written later, at times 4 and 3
file("NONE", "InstructionSet None extends RV32I { }\n")
file("SUMS", Path(__file__).resolve().parent.parent.joinpath("examples", "two-decoupled.core_desc").read_text())
for name, stages in [("CORE3", "three"), ("CORE5", "five")]:
    file(name, f'core = "{stages}"\nperiod = 1000\n[delay]\nadd = 600\n')


def summary(words, rows, retired, written, stop):
    return f"words {words}\nrows {rows}\nretired {retired}\nwritten {written}\nstop {stop}\n"


DRAWN = summary(3, 4, 2, 0, "Ebreak")
due("bench NONE CORE3 0 1", 0, DRAWN)
due("bench NONE CORE3 0 0", 0, summary(2, 3, 1, 0, "Ebreak"))
due("bench NONE CORE3 0000000000 01", 0, DRAWN)
due("bench NONE CORE5 4294967295 50", 0, summary(52, 68, 51, 0, "Ebreak"))
due("bench NONE CORE5 7 10000", 0, summary(10002, 11819, 10001, 0, "Ebreak"))
# a drawn jump back, and no end in 200,000 rows; and one out of the image
for name, target in [("BACK", "4"), ("AWAY", "(unsigned<32>)(X[rs1] + 4096)")]:
    file(name, f"InstructionSet Jump extends RV32I {{ instructions {{ t {{ encoding: 7'd0 :: rs2[4:0] :: rs1[4:0] :: 3'd0 :: rd[4:0] :: 7'b0001011; behavior: PC = {target}; }} }} }}\n")
file("CORE4", 'core = "four"\nperiod = 1000\n[delay]\nadd = 600\n')
due("bench BACK CORE3 3 20", 0, summary(22, 200000, 100000, 0, "none"))
due("bench AWAY CORE4 3 60", 0, summary(62, 5, 2, 0, "Fetch"))
due("bench SUMS CORE3 0 10000", 0, summary(10002, 290, 233, 53, "DataRange"))
due("bench SUMS CORE3 4 10000", 0, summary(10002, 141, 115, 24, "Misaligned"))
for words in ["bench", "bench NONE CORE3 0", "bench NONE CORE3 0 1 1", "benc NONE CORE3 0 1", "bench NONE CORE3 4294967296 1", "bench NONE CORE3 0 10001", "bench NONE CORE3 -1 1", "bench NONE CORE3 0 1.0", "bench NONE CORE3 00000000000 1"]:
    due(words, 2, "refused Usage\n")
# each file is judged before the next is read, and both before a schedule is sought
due("bench LOST LOST 0 1", 4, "refused ReadFault LOST\n")
due("bench EMPTY LOST 0 1", 7, "refused Extension At 0 0\n")
due("bench LINES1 LOST 0 1", 6, "refused TooLong LINES1\n")
due("bench NONE LOST 0 1", 4, "refused ReadFault LOST\n")
due("bench NONE LINES1 0 1", 6, "refused TooLong LINES1\n")
due("bench NONE NOTEXT 0 1", 8, "refused Sheet Utf8 -\n")
for n, line in enumerate(["Toml -", "Core core", "Number period", "Window WrRD", "Number lifetime"]):
    due(f"bench MULX T{n} 0 1", 8, f"refused Sheet {line}\n")
file("CORE3G", 'core = "three_g"\nperiod = 1000\n')
due("bench NONE CORE3G 0 1", 8, "refused Sheet Core core\n")
due("bench LARGE FIVE 0 1", 7, "refused Extension TooManyOps large\n")
due("bench MULX SLOW 0 1", 10, (NONE + UNTIMED).replace("delay 600", "delay 1200") + "cycle chain 2\nend\n")
for n in range(0, len(DRAWN) + 2):
    due("bench NONE CORE3 0 1", 5 if n < len(DRAWN) else 0, DRAWN[:n], ("-", 4096, n, 1))

# dumps, by hand: a sum that is computed where its operands are read and one that is kept for a stage, beside an always-block; and no module at all
file("NOWAITS", "")
file("SUM", "00500093\n0010818b\n00100073\n")
SUMX = "addx { encoding: 7'd0 :: rs2[4:0] :: rs1[4:0] :: 3'd0 :: rd[4:0] :: 7'b0001011; behavior: X[rd] = (unsigned<32>)(X[rs1] + X[rs2]); }"
file("SUMX", f"InstructionSet Sum extends RV32I {{ instructions {{ {SUMX} }} }}\n")
file("SUMODD", f"InstructionSet Sum extends RV32I {{ instructions {{ {SUMX} }} always {{ odd {{ if (PC == 12) PC = 20; }} }} }}\n")
file("KEPT", 'core = "five"\nperiod = 1000\n[delay]\nadd = 300\n')


def dump(modules, *rows):
    """Each module is its name and its ports, each row the ports that change with their numbers and widths in front of their values."""
    text, k = "$timescale 1ns $end\n", 0
    for name, *ports in modules:
        text += f"$scope module ixt_{name} $end\n"
        for port in ports:
            width, wire = port.split(":")
            text += f"$var wire {width} p{k} {wire} $end\n"
            k += 1
        text += "$upscope $end\n"
    text += "$enddefinitions $end\n"
    for n, row in enumerate(rows):
        text += f"#{n}\n"
        for k, width, value in row:
            text += f"{value}p{k}\n" if width == 1 else f"b{value:0{width}b} p{k}\n"
    return text


INPUTS, TERM = ["32:in0", "32:in1"], ["32:out4_v", "1:out4_c"]
AT_ONCE = [("addx", *INPUTS, *TERM), ("odd", "32:in0", "32:out2_v", "1:out2_c")]
NOTHING = [(0, 32, 0), (1, 32, 0), (2, 32, 0), (3, 1, 1), (4, 32, 0), (5, 32, 20), (6, 1, 0)]
DUMP = dump(AT_ONCE, NOTHING, [], [], [(0, 32, 5), (1, 32, 5), (2, 32, 10), (4, 32, 4)], [(0, 32, 0), (1, 32, 0), (2, 32, 0), (4, 32, 8)])
KEPT = [("addx", "1:en1", *INPUTS, *TERM)]
FIRST = [(0, 1, 0), (1, 32, 0), (2, 32, 0), (3, 32, 0), (4, 1, 1)]
KEPT_DUMP = dump(KEPT, FIRST, [(0, 1, 1)], [(0, 1, 0)], [], [], [(0, 1, 1), (1, 32, 5), (2, 32, 5)], [(1, 32, 0), (2, 32, 0), (3, 32, 10)], [(0, 1, 0), (3, 32, 0)], [])
due("wave SUMODD CORE3 SUM NOWAITS 20", 0, DUMP)
due("wave SUMODD CORE3 SUM NOWAITS 3", 0, dump(AT_ONCE, NOTHING, [], []))
due("wave SUMX KEPT SUM NOWAITS 0000000020", 0, KEPT_DUMP)
due("wave SUMX KEPT EMPTY NOWAITS 0", 0, dump(KEPT))
due("wave SUMX KEPT EMPTY NOWAITS 5", 0, dump(KEPT, FIRST))
due("wave NONE CORE3 SUM NOWAITS 20", 0, dump([], [], [], []))
due("wave NONE CORE3 EMPTY NOWAITS 0", 0, dump([]))
for words in ["wave", "wave SUMX KEPT SUM NOWAITS", "wave SUMX KEPT SUM NOWAITS 20 20", "waves SUMX KEPT SUM NOWAITS 20", "wave SUMX KEPT SUM NOWAITS 200001", "wave SUMX KEPT SUM NOWAITS -1", "wave SUM 20"]:
    due(words, 2, "refused Usage\n")
# each file is judged before the next is read, and all before a schedule is sought
due("wave LOST LOST LOST LOST 20", 4, "refused ReadFault LOST\n")
due("wave EMPTY LOST LOST LOST 20", 7, "refused Extension At 0 0\n")
due("wave LINES1 LOST LOST LOST 20", 6, "refused TooLong LINES1\n")
due("wave SUMX LOST LOST LOST 20", 4, "refused ReadFault LOST\n")
due("wave SUMX LINES1 LOST LOST 20", 6, "refused TooLong LINES1\n")
due("wave SUMX NOTEXT LOST LOST 20", 8, "refused Sheet Utf8 -\n")
for n, line in enumerate(["Toml -", "Core core", "Number period", "Window WrRD", "Number lifetime"]):
    due(f"wave MULX T{n} LOST LOST 20", 8, f"refused Sheet {line}\n")
due("wave SUMX CORE3G LOST LOST 20", 8, "refused Sheet Core core\n")
due("wave SUMX KEPT LOST LOST 20", 4, "refused ReadFault LOST\n")
due("wave SUMX KEPT LINES1 LOST 20", 6, "refused TooLong LINES1\n")
file("BADWORD", "00500093\n0050009\n")
file("BADWAIT", "1 256\n")
due("wave SUMX KEPT BADWORD LOST 20", 9, "refused Image 2\n")
due("wave SUMX KEPT SUM LOST 20", 4, "refused ReadFault LOST\n")
due("wave SUMX KEPT SUM LINES1 20", 6, "refused TooLong LINES1\n")
due("wave SUMX KEPT SUM BADWAIT 20", 14, "refused Waits 1\n")
due("wave LARGE FIVE SUM BADWAIT 20", 14, "refused Waits 1\n")
due("wave LARGE FIVE SUM NOWAITS 20", 7, "refused Extension TooManyOps large\n")
due("wave MULX SLOW SUM NOWAITS 20", 10, (NONE + UNTIMED).replace("delay 600", "delay 1200") + "cycle chain 2\nend\n")
for n in range(0, len(DUMP) // 40 + 3):
    whole = 40 * n >= len(DUMP)
    due("wave SUMODD CORE3 SUM NOWAITS 20", 0 if whole else 5, DUMP[: 40 * n], ("-", 4096, n, 40))
# a jump to itself, whose dump of 30,000 rows is more than the buffer holds: the write fails in the middle of the run
file("HERE", "0000006f\n")
due("wave NONE CORE3 HERE NOWAITS 30000", 5, dump([], *[[]] * 30000)[:8192], ("-", 4096, 2, 4096))

# an interrupt line: five and seven are added by a run that goes to a handler in row 3 and back from it
file("HANDLED", "00500093\n00700113\n002081b3\n00100073\n00120213\n30200073\n")
file("ROW3", "3")
HANDLED_RUN = """0 0@00000000 - -
1 1@00000004 0@00000000 -
2 2@00000008 1@00000004 0@00000000 r0
= 0 00000000 00500093 x1=00000005
3 3@0000000c 2@00000008 1@00000004 r1 f2 f3 p00000010 i00000008
= 1 00000004 00700113 x2=00000007
4 4@00000010 - -
5 5@00000014 4@00000010 -
6 - 5@00000014 4@00000010 r4 p00000008
= 4 00000010 00120213 x4=00000001
7 6@00000008 - 5@00000014 r5
= 5 00000014 30200073 pc=00000008
8 7@0000000c 6@00000008 -
9 8@00000010/Behind 7@0000000c 6@00000008 r6 stop Ebreak
= 6 00000008 002081b3 x3=0000000c
state
pc 0000000c
epc 00000008
enabled 1
x1 00000005
x2 00000007
x3 0000000c
x4 00000001
"""
due("run NONE CORE3 HANDLED NOWAITS ROW3 20", 0, HANDLED_RUN)
for n in range(0, len(HANDLED_RUN) // 40 + 3):
    whole = 40 * n >= len(HANDLED_RUN)
    due("run NONE CORE3 HANDLED NOWAITS ROW3 20", 0 if whole else 5, HANDLED_RUN[: 40 * n], ("-", 4096, n, 40))
# a line that is never raised, and none: the word of MRET is an instruction on a core with a line alone
due("run NONE CORE3 ADD NOWAITS EMPTY 20", 0, ADD_RUN.replace("pc 0000000c\n", "pc 0000000c\nepc 00000000\nenabled 1\n"))
due("run NONE CORE3 EMPTY NOWAITS EMPTY 0", 0, "state\npc 00000000\nepc 00000000\nenabled 1\n")
file("MRET", "30200073\n")
due("run NONE CORE3 MRET NOWAITS 20", 0, "0 0@00000000 - -\n1 - 0@00000000 - stop Illegal\nstate\npc 00000000\n")
due("run NONE CORE3 EMPTY NOWAITS ROW3 20", 0, "0 - - - stop Fetch\nstate\npc 00000000\nepc 00000000\nenabled 1\n")
for words in ["run NONE CORE3 EMPTY NOWAITS ROW3", "run NONE CORE3 EMPTY NOWAITS ROW3 20 20", "runs NONE CORE3 EMPTY NOWAITS ROW3 20", "wave NONE CORE3 EMPTY NOWAITS ROW3 20", "run NONE CORE3 EMPTY NOWAITS ROW3 200001", "run NONE CORE3 EMPTY NOWAITS ROW3 -1"]:
    due(words, 2, "refused Usage\n")
# the rows: digits, order, ends; each number, from 0, that is refused
for n, (text, at) in enumerate(
    [("x", 0), ("-1", 0), ("+1", 0), ("0x1", 0), ("1,2", 0), ("1000000", 0), ("0000001", 0), ("200000", 0), ("3 3", 1), ("3 2 9", 1), ("0 0", 1), ("1 2 199999 199999", 3), ("5\n6\r7\t8 x", 4), ("9 200000", 1), ("1 2 3 2", 3)]
):
    file(f"BADROW{n}", text)
    due(f"run NONE CORE3 EMPTY NOWAITS BADROW{n} 0", 15, f"refused Lines {at}\n")
for n, text in enumerate([" \t\r\n", "000000", "0 1 2\n\n199999", "\t000007\r\n8", " ".join(str(it) for it in range(4096))]):
    file(f"ROWS{n}", text)
    due(f"run NONE CORE3 EMPTY NOWAITS ROWS{n} 0", 0, "state\npc 00000000\nepc 00000000\nenabled 1\n")
file("MANYROWS", " ".join(str(it) for it in range(4097)))
due("run NONE CORE3 EMPTY NOWAITS MANYROWS 0", 15, "refused Lines 4096\n")
# the files in order, and the schedule behind them
due("run NONE CORE3 EMPTY BADWAIT BADROW0 20", 14, "refused Waits 1\n")
due("run NONE CORE3 EMPTY BADWAIT LOST 20", 14, "refused Waits 1\n")
due("run NONE CORE3 EMPTY NOWAITS LOST 20", 4, "refused ReadFault LOST\n")
due("run NONE CORE3 EMPTY NOWAITS LINES1 20", 6, "refused TooLong LINES1\n")
due("run LARGE FIVE EMPTY NOWAITS BADROW0 20", 15, "refused Lines 0\n")
due("run LARGE FIVE EMPTY NOWAITS ROW3 20", 7, "refused Extension TooManyOps large\n")
due("run MULX SLOW EMPTY NOWAITS ROW3 20", 10, (NONE + UNTIMED).replace("delay 600", "delay 1200") + "cycle chain 2\nend\n")

# audits: the sum of five and seven on three stages, its texts with one thing changed, and a sum that is written later
file("T", ADD_RUN)
due("audit NONE CORE3 ADD NOWAITS T", 0, "yes\n")
# without a reason to stay they are those of a core that forwards
FORWARDED_RUN = ADD_RUN.replace("/Behind", "").replace("/Operand(x2,1)", "").replace("4 3@0000000c 2@00000008 -\n5 -", "4 -")
file("CORE3F", 'core = "three_f"\nperiod = 1000\n')
file("TFORWARDED", FORWARDED_RUN)
due("audit NONE CORE3F ADD NOWAITS TFORWARDED", 0, "yes\n")
due("audit NONE CORE3 ADD NOWAITS TFORWARDED", 16, "refused Trace 5 Hold\n")
due("audit NONE CORE3F ADD NOWAITS T", 16, "refused Trace 5 Hold\n")
due("audit NONE CORE5 ADD NOWAITS T", 16, "refused Trace 1 Line\n")
# on five stages, with an instruction of an extension
file("TSUM", """0 0@00000000 - - - -
1 1@00000004 0@00000000 - - -
2 2@00000008/Behind 1@00000004/Operand(x1,0) 0@00000000 - -
3 2@00000008/Behind 1@00000004/Operand(x1,0) - 0@00000000 -
4 2@00000008/Behind 1@00000004/Operand(x1,0) - - 0@00000000 r0
= 0 00000000 00500093 x1=00000005
5 2@00000008 1@00000004 - - -
6 - 2@00000008 1@00000004 - -
7 - - 2@00000008/Drain(1) 1@00000004 -
8 - - 2@00000008 - 1@00000004 r1 stop Ebreak
= 1 00000004 0010818b x3=0000000a
state
pc 00000008
x1 00000005
x3 0000000a
""")
due("audit SUMX KEPT SUM NOWAITS TSUM", 0, "yes\n")
due("audit NONE KEPT SUM NOWAITS TSUM", 16, "refused Trace 3 Hold\n")
# no row, a row in which nothing is left, and the rows so far of a run
for n, (image, text) in enumerate([("ADD", NO_CYCLE), ("EMPTY", EMPTY_RUN), ("ADD", "".join(ADD_RUN.splitlines(True)[:6]) + "state\npc 00000008\nx1 00000005\nx2 00000007\n")]):
    file(f"TYES{n}", text)
    due(f"audit NONE CORE3 {image} NOWAITS TYES{n}", 0, "yes\n")
# of the sum's trace: a reason to stay that is not the first, is of another register or is left out, and a line behind a row before the next row
for n, (old, new, line) in enumerate([
    ("Operand(x2,1)", "Operand(x1,0)", "5 Hold"),
    ("Operand(x2,1)", "Late(1)", "5 Hold"),
    ("/Behind", "", "5 Hold"),
    ("4 3@0000000c 2@00000008", "4 3@0000000c/Behind 2@00000008/Operand(x2,1)", "7 Hold"),
    ("2@00000008 -\n", "2@00000008 - f3\n", "7 Successor"),
    ("2@00000008 r2 stop", "2@00000008/Drain(1) r2 stop", "8 Moves"),
    ("5 - 3@0000000c 2", "5 - 3@0000000c/Drain(2) 2", "8 Moves"),
    ("x1=00000005\n3 3@0000000c/Behind", "x1=00000006\n3 3@0000000c", "4 Commit"),
]):
    assert ADD_RUN.count(old) == 1
    file(f"TADD{n}", ADD_RUN.replace(old, new))
    due(f"audit NONE CORE3 ADD NOWAITS TADD{n}", 16, f"refused Trace {line}\n")
# of a short one: a place that is changed, and the first line that is refused
file("ONE", "00500093\n")
ROW0, ROW1, ROW2 = "0 0@00000000 - -\n", "1 - 0@00000000 -\n", "2 - - 0@00000000 r0 stop Fetch\n"
RETIRED, X1 = "= 0 00000000 00500093 x1=00000005\n", "x1 00000005\n"
ONE_RUN = ROW0 + ROW1 + ROW2 + RETIRED + "state\npc 00000004\n" + X1
file("TONE", ONE_RUN)
due("audit NONE CORE3 ONE NOWAITS TONE", 0, "yes\n")
MARKS = "w0 p00000010 stop Fetch\n+ 0\n"
for n, (old, new, line) in enumerate([
    (ONE_RUN, "", "1 Line"),
    (ONE_RUN, "\n", "1 Line"),
    (ONE_RUN, "state\n", "2 Line"),
    (X1, X1[:-1], "7 Line"),
    (X1, X1 + "\n", "8 Line"),
    (X1, X1 + "c0 0\n", "8 Line"),
    (X1, "m 80000000 00000001\n" + X1, "8 Line"),
    (X1, "x32 00000005\n", "7 Line"),
    ("pc 00000004\n", "", "6 Line"),
    ("state\n", "", "5 Line"),
    (ROW1, "2" + ROW1[1:], "2 Line"),
    (ROW1, "1 " + ROW1[1:], "2 Line"),
    (ROW1, "1 - 00@00000000 -\n", "2 Line"),
    (ROW1, "1 - 0@0000000 -\n", "2 Line"),
    (ROW1, "1 - 0@0000000A -\n", "2 Line"),
    (ROW1, "1 - 0@00000000 - -\n", "2 Line"),
    (ROW1, "1 - 0@00000000 - f3 f2\n", "2 Line"),
    (ROW1, "1 - 0@00000000 - stop\n", "2 Line"),
    (ROW1, "1 - 0@00000000/Operand(x32,0) -\n", "2 Line"),
    (ROW1, "1 - 0@00000000/Wait(256) -\n", "2 Line"),
    (ROW1, "1 - 0@00000000/Custom(c0,0) -\n", "2 Line"),
    (ROW1, "1 - 0@00000000/Trap -\n", "2 Line"),
    (ROW1, "1 - 0@00000000 - w0\n", "3 Line"),
    (RETIRED, "", "4 Line"),
    (RETIRED, RETIRED + RETIRED, "5 Line"),
    ("x1=00000005", "x1=0000005", "4 Line"),
    ("x1=00000005", "x1=00000005 c0=0", "4 Line"),
    (ROW1, "1 - - 0@00000000\n", "2 Moves"),
    (ROW1, "1 - 0@00000004 -\n", "2 Moves"),
    (" r0 stop Fetch\n" + RETIRED, " stop Fetch\n", "3 Moves"),
    ("0@00000000 r0", "0@00000000/Tail(1) r0", "3 Moves"),
    (ROW1, "1 - 0@00000000/Wait(1) -\n", "2 Hold"),
    ("0 0@", "0 1@", "1 Fetch"),
    (ROW1, "1 1@00000004 0@00000000 -\n", "2 Fetch"),
    (ROW0, "0 - - -\n", "1 Fetch"),
    (ROW1, "1 - 0@00000000 - p00000010\n", "2 Successor"),
    (ROW1, "1 - 0@00000000 - f9\n", "2 Successor"),
    (ROW1, "1 - 0@00000000 - w0\n+ 0 x1=00000005\n", "2 Unit"),
    (" stop Fetch", "", "3 Stop"),
    ("stop Fetch", "stop Ecall", "3 Stop"),
    (ROW1, "1 - 0@00000000 - stop Ebreak\n", "2 Stop"),
    ("state\n", "3 - - - stop Fetch\nstate\n", "5 Stop"),
    ("x1=00000005", "x1=00000006", "4 Commit"),
    ("= 0 0", "= 1 0", "4 Commit"),
    ("x1=00000005", "x1=00000005 pc=00000004", "4 Commit"),
    ("x1=00000005", "x1=later", "4 Commit"),
    ("pc 00000004", "pc 00000008", "6 State"),
    (X1, "x1 00000006\n", "7 State"),
    (X1, "", "7 State"),
    (X1, X1 + "x2 00000000\n", "8 State"),
    # two and more in one text: the form of all lines first, then the rows one by one, each respect in its turn; the state comes last
    ("".join([ROW1, ROW2, RETIRED, "state\n", "pc 00000004\n", X1]), "1 - - 0@00000000\n" + ROW2 + RETIRED + "state\npc 00000004\n" + X1[:-1], "7 Line"),
    (ROW1, "1 - 0@00000000/Tail(1) 0@00000000 " + MARKS, "2 Moves"),
    (ROW1, "1 1@00000004 0@00000000/Tail(1) - " + MARKS, "2 Hold"),
    (ROW0, "0 1@00000000 - - " + MARKS, "1 Fetch"),
    (ROW0, "0 0@00000000 - - " + MARKS, "1 Successor"),
    (ROW0, "0 0@00000000 - - w0 stop Fetch\n+ 0\n", "1 Unit"),
    ("Fetch\n" + RETIRED, "Ecall\n" + RETIRED.replace("x1", "x2"), "3 Stop"),
    (RETIRED + "state\npc 00000004", RETIRED.replace("x1", "x2") + "state\npc 00000008", "4 Commit"),
]):
    assert ONE_RUN.count(old) == 1
    file(f"TONE{n}", ONE_RUN.replace(old, new))
    due(f"audit NONE CORE3 ONE NOWAITS TONE{n}", 16, f"refused Trace {line}\n")
file("TSTOPPED", EMPTY_RUN.replace("state", "1 - - - stop Fetch\nstate"))
due("audit NONE CORE3 EMPTY NOWAITS TSTOPPED", 16, "refused Trace 2 Stop\n")
# a row behind the one with the stop: the instruction that stopped the run stays or is gone
file("BREAK", "00100073\n00500093\n")
file("LOAD", "10000137\n00012083\n001081b3\n")
BREAK_RUN = "0 0@00000000 - -\n1 1@00000004/Behind 0@00000000 - stop Ebreak\nstate\npc 00000000\n"
LOAD_RUN = """0 0@00000000 - - - -
1 1@00000004 0@00000000 - - -
2 2@00000008/Behind 1@00000004/Operand(x2,0) 0@00000000 - -
3 2@00000008/Behind 1@00000004/Operand(x2,0) - 0@00000000 -
4 2@00000008/Behind 1@00000004/Operand(x2,0) - - 0@00000000 r0
= 0 00000000 10000137 x2=10000000
5 2@00000008 1@00000004 - - -
6 - 2@00000008/Operand(x1,1) 1@00000004 - - stop DataRange
state
pc 00000004
x2 10000000
"""
for image, core, run, behind in [
    ("BREAK", "CORE3", BREAK_RUN, [
        ("2 1@00000004 - -", "3 Stop"),
        ("2 1@00000004 0@00000000 -", "3 Stop"),
        ("2 1@00000004/Behind 0@00000000 - stop Ebreak", "3 Stop"),
        ("2 1@00000004/Behind 0@00000000 -", "3 Hold"),
        ("2 1@00000004 0@00000000/Behind - w0 f1\n+ 0", "3 Hold"),
        ("2 1@00000004 - 0@00000000", "3 Moves"),
        ("2 - 1@00000004 -", "3 Moves"),
        ("2 1@00000004 - - w0 f1\n+ 0", "3 Successor"),
        ("2 1@00000004 0@00000000 - p00000004 stop Fetch", "3 Successor"),
        ("2 1@00000004 - - w0 stop Fetch\n+ 0", "3 Unit"),
    ]),
    ("LOAD", "CORE5", LOAD_RUN, [
        ("7 - 2@00000008/Operand(x1,1) - - -", "9 Stop"),
        ("7 - 2@00000008/Operand(x1,1) 1@00000004 - -", "9 Stop"),
        ("7 - 2@00000008 - - -", "9 Hold"),
        ("7 - 2@00000008/Behind 1@00000004 - -", "9 Hold"),
        ("7 3@0000000c/Behind 2@00000008/Operand(x1,1) - - - p0000000c", "9 Fetch"),
        ("7 - - 2@00000008 - -", "9 Moves"),
        ("7 - 2@00000008 - - - f1", "9 Successor"),
        ("7 - 2@00000008/Operand(x1,1) - - - p0000000c", "9 Successor"),
    ]),
]:
    file(f"T{image}", run)
    due(f"audit NONE {core} {image} NOWAITS T{image}", 0, "yes\n")
    for n, (row, line) in enumerate(behind):
        file(f"T{image}{n}", run.replace("state", row + "\nstate"))
        due(f"audit NONE {core} {image} NOWAITS T{image}{n}", 16, f"refused Trace {line}\n")
file("THANDLED", HANDLED_RUN)
due("audit NONE CORE3 HANDLED NOWAITS THANDLED", 16, "refused Trace 5 Line\n")
# a sum that its unit writes, in a row in which another instruction retires
file("LATER", "00500093\n0010818b\n00000013\n00000013\n00100073\n")
LATER_RUN = """0 0@00000000 - -
1 1@00000004 0@00000000 -
2 2@00000008/Behind 1@00000004/Operand(x1,0) 0@00000000 r0
= 0 00000000 00500093 x1=00000005
3 2@00000008 1@00000004 -
4 3@0000000c 2@00000008 1@00000004 r1
= 1 00000004 0010818b x3=later
5 4@00000010 3@0000000c 2@00000008 r2
= 2 00000008 00000013
6 - 4@00000010 3@0000000c r3 w1 stop Ebreak
= 3 0000000c 00000013
+ 1 x3=0000000d
state
pc 00000010
x1 00000005
x3 0000000d
"""
OWED_RUN = "".join(LATER_RUN.splitlines(True)[:9]) + "state\npc 0000000c\nx1 00000005\no 1 x3\n"
for n, text in enumerate([LATER_RUN, OWED_RUN]):
    file(f"TLATER{n}", text)
    due(f"audit SUMS CORE3 LATER NOWAITS TLATER{n}", 0, "yes\n")
for n, (text, old, new, line) in enumerate([
    (LATER_RUN, "= 3 0000000c 00000013\n+ 1 x3=0000000d\n", "+ 1 x3=0000000d\n= 3 0000000c 00000013\n", "11 Line"),
    (LATER_RUN, "+ 1 x3=0000000d", "+ 1 x3=later", "12 Line"),
    (LATER_RUN, " w1 stop Ebreak\n= 3 0000000c 00000013\n+ 1 x3=0000000d\n", " stop Ebreak\n= 3 0000000c 00000013\n", "10 Unit"),
    (LATER_RUN, "2@00000008 r2\n= 2 00000008 00000013\n", "2@00000008 r2 w1\n= 2 00000008 00000013\n+ 1 x3=0000000d\n", "8 Unit"),
    (LATER_RUN, "x3=later", "x3=0000000d", "7 Commit"),
    (LATER_RUN, "= 3 0000000c 00000013\n+ 1 x3=0000000d", "= 3 0000000c 00000093\n+ 1 x3=0000000c", "11 Commit"),
    (LATER_RUN, "+ 1 x3=0000000d", "+ 1 x3=0000000c", "12 Write"),
    (LATER_RUN, "+ 1 x3=0000000d", "+ 1", "12 Write"),
    (LATER_RUN, "+ 1 x3=0000000d\nstate\npc 00000010", "+ 1 x4=0000000d\nstate\npc 00000014", "12 Write"),
    (OWED_RUN, "o 1 x3\n", "", "13 State"),
    (OWED_RUN, "o 1 x3\n", "o 2 x3\n", "13 State"),
    (OWED_RUN, "x1 00000005\n", "x1 00000005\nx3 0000000d\n", "13 State"),
]):
    assert text.count(old) == 1
    file(f"TLATE{n}", text.replace(old, new))
    due(f"audit SUMS CORE3 LATER NOWAITS TLATE{n}", 16, f"refused Trace {line}\n")
# words, files in order, the schedule behind them all, and reads and writes that fail
for words in ["audit", "audit NONE CORE3 ADD NOWAITS", "audit NONE CORE3 ADD NOWAITS T T", "audits NONE CORE3 ADD NOWAITS T", "Audit NONE CORE3 ADD NOWAITS T", "audit ADD T"]:
    due(words, 2, "refused Usage\n")
due("audit EMPTY LOST LOST LOST LOST", 7, "refused Extension At 0 0\n")
due("audit NONE NOTEXT LOST LOST LOST", 8, "refused Sheet Utf8 -\n")
due("audit NONE CORE3 BADWORD LOST LOST", 9, "refused Image 2\n")
due("audit NONE CORE3 ADD BADWAIT LOST", 14, "refused Waits 1\n")
due("audit NONE CORE3 ADD LOST EMPTY", 4, "refused ReadFault LOST\n")
due("audit NONE CORE3 ADD NOWAITS LOST", 4, "refused ReadFault LOST\n")
due("audit NONE CORE3 ADD NOWAITS LINES1", 6, "refused TooLong LINES1\n")
due("audit NONE CORE3 ADD NOWAITS LINES", 16, "refused Trace 1 Line\n")
due("audit MULX SLOW ADD NOWAITS LOST", 4, "refused ReadFault LOST\n")
due("audit MULX SLOW ADD NOWAITS LINES1", 6, "refused TooLong LINES1\n")
due("audit MULX SLOW ADD NOWAITS EMPTY", 10, (NONE + UNTIMED).replace("delay 600", "delay 1200") + "cycle chain 2\nend\n")
due("audit LARGE FIVE ADD NOWAITS EMPTY", 7, "refused Extension TooManyOps large\n")
# a file takes one read more than it has parts of 4,096 bytes, which sees its end
for n, name in enumerate(["NONE", "NONE", "CORE3", "CORE3", "ADD", "ADD", "NOWAITS", "T", "T"]):
    due("audit NONE CORE3 ADD NOWAITS T", 4, f"refused ReadFault {name}\n", (n, 4096, "-", 4096))
due("audit NONE CORE3 ADD NOWAITS T", 0, "yes\n", (9, 4096, "-", 4096))
for n in range(6):
    due("audit NONE CORE3 ADD NOWAITS T", 0 if n > 3 else 5, "yes\n"[:n], ("-", 4096, n, 1))
    due("audit NONE CORE3 ADD NOWAITS EMPTY", 16 if n > 2 else 5, "refused Trace 1 Line\n"[: 8 * n], ("-", 4096, n, 8))

# two harts in turn: a sum beside nothing and beside a stop; what waits is turned; two units each
ADD_ROWS = """2 a1@00000004 {} a0@00000000 ra0{}
=a 0 00000000 00500093 x1=00000005
3 - a1@00000004 -
4 a2@00000008 - a1@00000004 ra1
=a 1 00000004 00700113 x2=00000007
5 - a2@00000008 -
6 a3@0000000c - a2@00000008 ra2
=a 2 00000008 002081b3 x3=0000000c
7 - a3@0000000c - stop a Ebreak
state a
pc 0000000c
x1 00000005
x2 00000007
x3 0000000c
state b
pc 00000000
"""
BESIDE_NONE = "0 a0@00000000 - -\n1 - a0@00000000 - stop b Fetch\n" + ADD_ROWS.format("-", "")
BESIDE_BREAK = "0 a0@00000000 - -\n1 b0@00000000 a0@00000000 -\n" + ADD_ROWS.format("b0@00000000", " stop b Ebreak")
file("BREAK", "00100073\n")
file("CORE3LONG", 'core = "three"\nperiod = 1000\n[delay]\nadd = 600\n')
file("LIMIT", "InstructionSet Limit extends RV32I { instructions { t { encoding: 7'd0 :: rs2[4:0] :: rs1[4:0] :: 3'd0 :: rd[4:0] :: 7'b0001011; behavior: { unsigned<32> t = X[rs1]; t = (unsigned<32>)(t + X[rs2]); t = (unsigned<32>)(t + X[rs2]); t = (unsigned<32>)(t + X[rs2]); t = (unsigned<32>)(t + X[rs2]); X[rd] = t; } } } }\n")
for core in ["CORE3", "CORE3F"]:
    due(f"barrel NONE {core} ADD EMPTY 20", 0, BESIDE_NONE)
    due(f"barrel NONE {core} ADD BREAK 20", 0, BESIDE_BREAK)
due("barrel NONE CORE3 ADD EMPTY 8", 0, BESIDE_NONE)
due("barrel NONE CORE3 ADD EMPTY 3", 0, "".join(BESIDE_NONE.splitlines(True)[:4]) + "state a\npc 00000004\nx1 00000005\nstate b\npc 00000000\n")
due("barrel NONE CORE3 ADD ADD 0", 0, "state a\npc 00000000\nstate b\npc 00000000\n")
due("barrel NONE CORE3 EMPTY EMPTY 20", 0, "0 - - - stop a Fetch\n1 - - - stop b Fetch\nstate a\npc 00000000\nstate b\npc 00000000\n")
# a jump to itself, as the first hart and as the second, until no more rows may be made
due("barrel NONE CORE3 HERE BREAK 5", 0, """0 a0@00000000 - -
1 b0@00000000 a0@00000000 - pa00000000
2 a1@00000000 b0@00000000 a0@00000000 ra0 stop b Ebreak
=a 0 00000000 0000006f pc=00000000
3 - a1@00000000 - pa00000000
4 a2@00000000 - a1@00000000 ra1
=a 1 00000000 0000006f pc=00000000
state a
pc 00000000
state b
pc 00000000
""")
due("barrel NONE CORE3 BREAK HERE 5", 0, """0 a0@00000000 - -
1 b0@00000000 a0@00000000 - stop a Ebreak
2 - b0@00000000 - pb00000000
3 b1@00000000 - b0@00000000 rb0
=b 0 00000000 0000006f pc=00000000
4 - b1@00000000 - pb00000000
state a
pc 00000000
state b
pc 00000000
""")
# two units, of which each hart has its own
file("SLOWQUICK", "InstructionSet SlowQuick extends RV32I { instructions { slow { encoding: 7'd0 :: rs2[4:0] :: rs1[4:0] :: 3'd0 :: rd[4:0] :: 7'b0001011; behavior: spawn X[rd] = (unsigned<32>)(X[rs1] + X[rs2] + 1 + 1 + 1); } quick { encoding: 7'd0 :: rs2[4:0] :: rs1[4:0] :: 3'd1 :: rd[4:0] :: 7'b0001011; behavior: spawn X[rd] = (unsigned<32>)(X[rs1] + X[rs2]); } } }\n")
file("APART", "0020828b\n0020930b\n00100393\n00100073\n")
due("barrel SLOWQUICK CORE3LONG APART APART 100", 0, """0 a0@00000000 - -
1 b0@00000000 a0@00000000 -
2 a1@00000004 b0@00000000 a0@00000000 ra0
=a 0 00000000 0020828b x5=later
3 b1@00000004 a1@00000004 b0@00000000 rb0
=b 0 00000000 0020828b x5=later
4 a2@00000008 b1@00000004 a1@00000004 ra1
=a 1 00000004 0020930b x6=later
5 b2@00000008 a2@00000008 b1@00000004 wa0 rb1
+a 0 x5=00000003
=b 1 00000004 0020930b x6=later
6 a3@0000000c b2@00000008 a2@00000008 ra2 wb0
=a 2 00000008 00100393 x7=00000001
+b 0 x5=00000003
7 b3@0000000c a3@0000000c b2@00000008 wa1 stop a Ebreak rb2
+a 1 x6=00000000
=b 2 00000008 00100393 x7=00000001
8 - b3@0000000c - wb1 stop b Ebreak
+b 1 x6=00000000
state a
pc 0000000c
x5 00000003
x7 00000001
state b
pc 0000000c
x5 00000003
x7 00000001
""")
# words, files in order, either image, the schedule behind them all, and what waits in the last stage behind the schedules
for words in ["barrel", "barrel NONE CORE3 ADD ADD", "barrel NONE CORE3 ADD ADD 20 20", "barrel NONE CORE3 ADD 20", "barrel NONE CORE3 ADD ADD 200001", "barrel NONE CORE3 ADD ADD -1", "barrels NONE CORE3 ADD ADD 20", "Barrel NONE CORE3 ADD ADD 20"]:
    due(words, 2, "refused Usage\n")
due("barrel EMPTY LOST LOST LOST 20", 7, "refused Extension At 0 0\n")
due("barrel NONE NOTEXT LOST LOST 20", 8, "refused Sheet Utf8 -\n")
due("barrel NONE CORE3 BADWORD LOST 20", 9, "refused Image 2\n")
due("barrel NONE CORE3 LOST BADWORD 20", 4, "refused ReadFault LOST\n")
due("barrel NONE CORE3 ADD BADWORD 20", 9, "refused Image 2\n")
due("barrel NONE CORE3 ADD LINES1 20", 6, "refused TooLong LINES1\n")
due("barrel MULX SLOW ADD LOST 20", 4, "refused ReadFault LOST\n")
due("barrel MULX SLOW ADD ADD 20", 10, (NONE + UNTIMED).replace("delay 600", "delay 1200") + "cycle chain 2\nend\n")
due("barrel LARGE FIVE ADD ADD 20", 7, "refused Extension TooManyOps large\n")
due("barrel LIMIT CORE3LONG ADD ADD 20", 17, "refused Barrel t\n")
due("barrel LIMIT CORE3LONG ADD ADD 0", 17, "refused Barrel t\n")
due("barrel LIMIT CORE3LONG ADD BADWORD 20", 9, "refused Image 2\n")
# a file takes one read more than it has parts of 4,096 bytes, which sees its end
for n, name in enumerate(["NONE", "NONE", "CORE3", "CORE3", "ADD", "ADD", "EMPTY"]):
    due("barrel NONE CORE3 ADD EMPTY 20", 4, f"refused ReadFault {name}\n", (n, 4096, "-", 4096))
due("barrel NONE CORE3 ADD EMPTY 20", 0, BESIDE_NONE, (7, 4096, "-", 4096))
for n in range(4):
    due("barrel NONE CORE3 ADD EMPTY 20", 5 if 150 * n < len(BESIDE_NONE) else 0, BESIDE_NONE[: 150 * n], ("-", 4096, n, 150))
    due("barrel LIMIT CORE3LONG ADD ADD 20", 17 if n > 2 else 5, "refused Barrel t\n"[: 6 * n], ("-", 4096, n, 6))

STORED = [Path(__file__).resolve().parent / "commands" / name for name in ["tutorial", "schedules", "runs", "forwards", "base", "diagnoses"]]

# each read and each write of a command of each kind failing in turn, and then one byte in each call; what is due without a fault stands above
texts, whole = {}, {}
stored = [it.with_suffix(suffix).read_text(encoding="utf-8", errors="surrogateescape").split(END) for suffix in [".cases", ".answers"] for it in STORED]
told = [it for answer in stored[len(STORED):] for it in answer[:-1]] + answers
for part in [it for case in stored[: len(STORED)] for it in case[:-1]] + parts:
    head, _, text = part.partition("\n")
    if head.startswith("file "):
        texts.setdefault(head[5:], text)
    elif head and not head.startswith(("many ", "byte ")):
        whole.setdefault(part, told.pop(0))
assert not told


def turns(words, read, write, answer=None, writes=None):
    """A command whose reads and writes fail in turn, so many bytes going in one of them at most. The words alone name its files, each of which is read to its end, and one read sees that."""
    text, status = (answer or whole[words]).rsplit("status ", 1)
    reads = [name for name in words.split(" ")[1:] if name in texts for _ in range(-(-len(texts[name]) // read) + 1)]
    for n, name in enumerate(reads):
        due(words, 4, f"refused ReadFault {name}\n", (n, read, "-", 4096))
    for n in writes or range(-(-len(text) // write)):
        due(words, 5, text[: n * write], ("-", 4096, n, write))
    due(words, status, text, ("-", 1, "-", 1))


file("AUTOINC", "InstructionSet AutoInc extends RV32I { architectural_state { register unsigned<32> ADDR; } instructions { setaddr { encoding: 12'd0 :: rs1[4:0] :: 3'd0 :: 5'd0 :: 7'b0001011; behavior: ADDR = X[rs1]; } lwinc { encoding: 17'd0 :: 3'd1 :: rd[4:0] :: 7'b0001011; behavior: { X[rd] = MEM[ADDR+3:ADDR]; ADDR += 4; } } } }\n")
file("LOADS", "800000b7\n0000800b\n0000110b\n0000118b\n0000120b\n00100073\n")
file("WAITS255", "0 255 3\n")
for name in ["AUTOINC", "LOADS", "WAITS255"]:
    texts[name] = next(it for it in parts if it.startswith(f"file {name}\n")).partition("\n")[2]
AUTOINC_RUN = (
    """0 0@00000000 - -
1 1@00000004 0@00000000 -
2 2@00000008/Behind 1@00000004/Operand(x1,0) 0@00000000 r0
= 0 00000000 800000b7 x1=80000000
3 2@00000008 1@00000004 -
4 3@0000000c 2@00000008 1@00000004 r1
= 1 00000004 0000800b c0=80000000
5 4@00000010 3@0000000c 2@00000008 r2
= 2 00000008 0000110b x2=00000000 c0=80000004
"""
    + "".join(f"{n} 5@00000014/Behind 4@00000010/Behind 3@0000000c/Wait({261 - n})\n" for n in range(6, 261))
    + """261 5@00000014 4@00000010 3@0000000c r3
= 3 0000000c 0000118b x3=00000000 c0=80000008
262 - 5@00000014/Drain(4) 4@00000010/Wait(3)
263 - 5@00000014/Drain(4) 4@00000010/Wait(2)
264 - 5@00000014/Drain(4) 4@00000010/Wait(1)
265 - 5@00000014 4@00000010 r4 stop Ebreak
= 4 00000010 0000120b x4=00000000 c0=8000000c
state
pc 00000014
x1 80000000
c0 8000000c
"""
)
# (its 1,602 writes of ten bytes: the first twenty, and four more)
turns("run AUTOINC CORE3LONG LOADS WAITS255 1000", 7, 10, AUTOINC_RUN + "status 0", [*range(20), 400, 800, 1_200, 1_601])
for words in [
    "run ADD 20",
    "run NONE CORE3 HANDLED NOWAITS ROW3 20",
    "check average.core_desc",
    "seq average.core_desc average.hex 10",
    "asm average.core_desc average.s",
    "schedule addx.core_desc forwarding.toml",
    "sweep BLOCKS D7",
    "certify R1",
    "build average.core_desc core.toml",
    "wave SUMX KEPT EMPTY NOWAITS 5",
    "bench NONE CORE3 0 1",
    "audit NONE CORE3 ADD NOWAITS TYES0",
    "barrel NONE CORE3 ADD BREAK 20",
    "run",
]:
    turns(words, 32, 32)
turns("check EMPTY", 16, 16, "refused Extension At 0 0\nstatus 7")
turns("audit NONE CORE3 ADD NOWAITS EMPTY", 16, 16, "refused Trace 1 Line\nstatus 16")

FOLDER.joinpath("stdin").write_bytes(b"".join(it.with_suffix(".cases").read_bytes() for it in STORED) + "".join(part + END for part in parts).encode())
FOLDER.joinpath("stdout").write_bytes(b"".join(it.with_suffix(".answers").read_bytes() for it in STORED) + "".join(answer + END for answer in answers).encode())
