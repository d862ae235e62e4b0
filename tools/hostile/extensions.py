"""Hostile texts of extensions: the deepest, longest and widest that the language has."""
import random

from hostile.texts import MOST, Text, filled, long_name_of, name_of, numbered, tree_of

FIELDS = b"encoding: 7'd0 :: rs2[4:0] :: rs1[4:0] :: 3'd0 :: rd[4:0] :: 7'b0001011; "
OPEN = b"InstructionSet A extends RV32I { instructions { i { " + FIELDS
HEAD = OPEN + b"behavior: { unsigned<32> a = X[rs1]; unsigned<32> b = X[rs2]; "
TAIL = b" X[rd] = a; } } } }"
# The statements that HEAD and TAIL leave of 16,384: they have a block, two declarations, and an
# assignment.
STATEMENTS = 16_380


def body(statements):
    """An instruction with these statements, which may use `a` and `b`."""
    return HEAD + statements + TAIL


def most(statement, statements=1):
    """An instruction with a statement, which may be several, as often as the limit on statements and
    the file allow."""
    count = min(STATEMENTS // statements, (MOST - len(HEAD) - len(TAIL)) // len(statement))
    return body(statement * count)


def state(entries, instructions=b""):
    """An extension with these registers and tables."""
    return (
        b"InstructionSet A extends RV32I { architectural_state { "
        + entries
        + b" } instructions { "
        + instructions
        + b"} }"
    )


# Tokens

TOKENS = [
    Text("spaces", "refused Extension At", lambda: b" " * MOST),
    Text("line feeds", "refused Extension At", lambda: b"\n" * MOST),
    Text("one comment", "refused Extension At", lambda: filled(b"/*", b"x", b"*/")),
    Text("comments", "refused Extension At", lambda: filled(b"", b"/**/")),
    Text("line comments", "refused Extension At", lambda: filled(b"", b"//\n")),
    Text("one line comment", "refused Extension At", lambda: filled(b"//", b"x")),
    Text("an open comment", "refused Extension Unclosed", lambda: filled(b"/*", b"/*")),
    Text("an open string", "refused Extension Unclosed", lambda: filled(b'"', b"x")),
    Text("semicolons", "refused Extension At", lambda: b";" * MOST),
    Text("strings", "refused Extension At", lambda: b'""' * (MOST // 2)),
    Text("one name", "refused Extension BadByte 0 0", lambda: b"n" * MOST),
    Text("names of 64 bytes", "refused Extension At", lambda: filled(b"", b"n" * 64 + b" ")),
    Text("one run of digits", "refused Extension BadNumber 0 0", lambda: b"1" * MOST),
    Text("one run of quotes", "refused Extension BadNumber 0 0", lambda: filled(b"", b"1'")),
    Text("bytes 255", "refused Extension BadByte 0 0", lambda: b"\xff" * MOST),
    Text("zero bytes", "refused Extension BadByte 0 0", lambda: b"\0" * MOST),
    Text("a bad byte at the end", "refused Extension BadByte", lambda: b" " * (MOST - 1) + b"\x1b"),
    Text("an escape at each place", "refused Extension BadByte", lambda: filled(b"", b"\x1b[31m")),
    Text("one number of zeros", "set A", lambda: filled(HEAD + b"a = 0x", b"0", b"1;" + TAIL)),
    Text("one number of binary zeros", "set A", lambda: filled(HEAD + b"a = 0b", b"0", b"1;" + TAIL)),
    Text("one sized number", "set A", lambda: filled(HEAD + b"a = 32'd", b"0", b"1;" + TAIL)),
    Text("one number with marks", "set A", lambda: filled(HEAD + b"a = 0x", b"0_", b"1;" + TAIL)),
    Text(
        "one string in a text",
        "set A",
        lambda: filled(OPEN + b'assembly: "', b"x", b'"; behavior: ; } } }'),
    ),
    Text(
        "strings in a text",
        "set A",
        lambda: filled(OPEN + b'assembly: {""', b',""', b"}; behavior: ; } } }"),
    ),
    Text("comments in a text", "set A", lambda: filled(HEAD, b"/*/*/", TAIL)),
]

# Nesting

DEEP = 63  # (a statement of a behaviour's block nests one deep already)


def nest_of(opening, inner, closing, statements):
    """Nests of so many statements each, as many as the limit on statements allows."""
    nest = opening * DEEP + inner + closing * DEEP
    return body(nest * min(STATEMENTS // statements, (MOST - len(HEAD) - len(TAIL)) // len(nest)))


def loops_within():
    """Loops of one turn within each other, each of which is a copy and, but for the first, a block
    around it. A head nests one deeper than its loop, and what stands behind `<` one more."""
    names = [name_of(n).encode() for n in range(DEEP - 1)]
    nest = b"".join(b"for(int %s=0;%s<1;%s++)" % (it, it, it) for it in names) + b";"
    return body(nest * (STATEMENTS // (2 * DEEP)))


NESTING = [
    Text("brackets", "set A", lambda: most(b"a=" + b"(" * DEEP + b"b" + b")" * DEEP + b";"), deep=True),
    Text("bracket too deep", "refused Extension Deep", lambda: body(b"a=" + b"(" * 64 + b"b" + b")" * 64 + b";")),
    Text("open brackets", "refused Extension Deep", lambda: filled(HEAD + b"a=", b"("), deep=True),
    Text("open braces", "refused Extension Deep", lambda: filled(HEAD, b"{"), deep=True),
    Text("open square brackets", "refused Extension Deep", lambda: filled(HEAD + b"a=b", b"[a"), deep=True),
    Text("signs without an end", "refused Extension Deep", lambda: filled(HEAD + b"a=", b"~"), deep=True),
    Text("casts without an end", "refused Extension Deep", lambda: filled(HEAD + b"a=", b"(signed)"), deep=True),
    Text("choices without an end", "refused Extension Deep", lambda: filled(HEAD + b"a=", b"a?"), deep=True),
    Text("ifs without an end", "refused Extension Deep", lambda: filled(HEAD, b"if(a)"), deep=True),
    Text("loops without an end", "refused Extension Deep", lambda: filled(HEAD, b"for(i=0;i<1;i++)"), deep=True),
    Text("spawns without an end", "refused Extension Deep", lambda: filled(HEAD, b"spawn "), deep=True),
    Text("a sum without an end", "refused Extension Deep", lambda: filled(HEAD + b"a=a", b"+a"), deep=True),
    Text("signs", "set A", lambda: most(b"a=" + b"~" * DEEP + b"b;"), deep=True),
    Text("casts", "set A", lambda: most(b"a=" + b"(unsigned)" * DEEP + b"b;"), deep=True),
    Text("choices", "set A", lambda: most(b"a=" + b"a?b:" * DEEP + b"b;"), deep=True),
    Text("choices in the second part", "set A", lambda: most(b"a=" + b"a?" * DEEP + b"b" + b":b" * DEEP + b";"), deep=True),
    Text("indices", "set A", lambda: most(b"a=b" + b"[31:0]" * DEEP + b";"), deep=True),
    Text("a chain of operators", "set A", lambda: most(b"a=a" + b"^b" * DEEP + b";"), deep=True),
    Text("blocks", "set A", lambda: nest_of(b"{", b";", b"}", DEEP + 1), deep=True),
    Text("ifs", "set A", lambda: nest_of(b"if(a)", b"a=b;", b"", DEEP + 1), deep=True),
    Text("elses", "set A", lambda: nest_of(b"if(a)a=b;else ", b"b=a;", b"", 2 * DEEP + 1), deep=True),
    Text("loops of one turn", "set A", loops_within, deep=True),
    Text("a tree of names", "set A", lambda: body(b"a=" + b"^".join([tree_of(b"b", 10)] * 5) + b";"), deep=True),
    Text("a tree in a condition", "set A", lambda: body(b"if(" + b"^".join([tree_of(b"b", 10)] * 5) + b")a=b;"), deep=True),
    Text("a tree in an index", "set A", lambda: body(b"a=b[" + b"^".join([tree_of(b"0", 10)] * 5) + b"];"), deep=True),
    Text("a tree in a loop's start", "set A", lambda: body(b"for(int i=" + b"^".join([tree_of(b"0", 10)] * 5) + b";i<128;i++)a=b;"), deep=True),
]

# Declarations and encodings


def registers():
    return numbered(
        b"InstructionSet A extends RV32I { architectural_state { ",
        lambda n: f"register bool {name_of(n)};",
        b"} }",
    )


def tables():
    return numbered(
        b"InstructionSet A extends RV32I { architectural_state { ",
        lambda n: f"const bool {name_of(n)}[1]={{1}};",
        b"} }",
    )


def table_of(count, entry=b"1"):
    """A table of so many entries."""
    return state(b"const bool T[%d]={%s};" % (count, b",".join([entry] * count)))


def instructions(count, behaviour):
    """Instructions with words of their own, up to 64, all of one behaviour."""
    units = []
    for n in range(count):
        opcodes = [0b0001011, 0b0101011, 0b1011011, 0b1111011]
        units.append(
            b"i%d{encoding:4'd%d::3'd0::rs2[4:0]::rs1[4:0]::3'd%d::rd[4:0]::7'd%d;behavior:%s}"
            % (n, n // 32 % 2, n % 8, opcodes[n // 8 % 4], behaviour(n))
        )
    return b"".join(units)


def wide_encodings():
    """64 instructions of 32 pieces each."""
    opcodes = [0b0001011, 0b0101011, 0b1011011, 0b1111011]
    units = []
    for n in range(64):
        pieces = "::".join(f"{name_of(k)}[0:0]" for k in range(19))
        low = "::".join(f"1'b{opcodes[n % 4] >> k & 1}" for k in reversed(range(7)))
        units.append(f"i{n}{{encoding:{pieces}::1'b{n // 32}::1'b{n // 16 % 2}::1'b{n // 8 % 2}::1'b{n // 4 % 2}"
                     f"::1'b0::1'b0::{low};behavior:;}}".encode())
    return b"InstructionSet A extends RV32I { instructions { " + b"".join(units) + b"} }"


DECLARED = [
    Text("registers", "refused Extension TooMany", registers),
    Text("registers of one name", "refused Extension Twice", lambda: filled(b"InstructionSet A extends RV32I { architectural_state { ", b"register bool r;", b"} }")),
    Text("tables", "refused Extension TooMany", tables),
    Text("a table of 500,000 entries", "refused Extension TooMany", lambda: table_of(500_000)),
    Text("a table of 4,096 entries", "set A", lambda: table_of(4_096, b"1" + b" " * 253)),
    Text("a table of 4,096 trees", "set A", lambda: table_of(4_096, tree_of(b"1", 4)[:253])),
    Text("a table of one entry of names", "refused Extension Unknown", lambda: state(b"const bool T[1]={" + b"^".join([tree_of(b"n", 10)] * 5) + b"};")),
    Text("an initial value of one tree", "set A", lambda: state(b"register bool r=" + b"^".join([tree_of(b"0", 10)] * 5) + b";")),
    Text("instructions", "refused Extension TooMany", lambda: numbered(b"InstructionSet A extends RV32I { instructions { ", lambda n: f"{name_of(n)}{{encoding:32'd{n << 7 | 11};behavior:;}}", b"} }", STATEMENTS)),
    Text("instructions of one name", "refused Extension Twice", lambda: filled(b"InstructionSet A extends RV32I { instructions { ", b"i{encoding:32'd11;behavior:;}", b"} }", 470_000)),
    Text("blocks", "refused Extension TooMany", lambda: numbered(b"InstructionSet A extends RV32I { always { ", lambda n: f"{name_of(n)}{{}}", b"} }", STATEMENTS)),
    Text("sections", "refused Extension Twice", lambda: filled(b"InstructionSet A extends RV32I { ", b"always{}", b"}")),
    Text("fixed pieces", "refused Extension EncodingWidth i", lambda: filled(b"InstructionSet A extends RV32I { instructions { i { encoding: 1'b0", b"::1'b0", b"; behavior:; } } }")),
    Text("pieces of one field", "refused Extension EncodingWidth i", lambda: filled(b"InstructionSet A extends RV32I { instructions { i { encoding: 1'b0", b"::f[0:0]", b"; behavior:; } } }")),
    Text("fields", "refused Extension EncodingWidth i", lambda: numbered(b"InstructionSet A extends RV32I { instructions { i { encoding: 1'b0", lambda n: f"::{name_of(n)}[0:0]", b"; behavior:; } } }")),
    Text("64 instructions of 32 pieces", "set A", wide_encodings),
    Text("locals of one declaration", "set A", lambda: numbered(HEAD + b"int n", lambda n: "," + name_of(n), b";" + TAIL), tight=True),
    Text("locals of 64 bytes", "set A", lambda: numbered(HEAD + b"int n", lambda n: "," + long_name_of(n), b";" + TAIL)),
    Text("locals of one name", "refused Extension Twice", lambda: filled(HEAD + b"int n", b",n", b";" + TAIL)),
    Text("locals with values", "set A", lambda: numbered(HEAD + b"unsigned<32> n=a", lambda n: f",{name_of(n)}=a", b";" + TAIL), tight=True),
    Text("a local for each statement", "set A", lambda: numbered(HEAD, lambda n: f"unsigned<32> n{n:042d}=a^b;", TAIL, STATEMENTS)),
    Text("declarations of one name in blocks", "set A", lambda: most(b"{int n;}", 2)),
]

# Statements, and what multiplies

# (each of 128 * 63 copies is a block, with a statement in it)
LOOPS = b"for(int i=0;i<128;i++)for(int j=0;j<63;j++)"


def names_in(count):
    """An assignment that has so many names, within 64 of nesting."""
    levels = 0
    while 3 ** (levels + 1) <= count:
        levels += 1
    trees = count // 3**levels
    return b"a=" + b"^".join([tree_of(b"b", levels)] * trees) + b";"


def locals_in(count):
    return b"int " + b",".join(name_of(n).encode() for n in range(count)) + b";"


def ifs_of_locals(count, statement):
    """Locals, and `if`s behind them, as many as fit."""
    start = b"int " + b",".join(name_of(n).encode() for n in range(count)) + b";"
    room = MOST - len(HEAD) - len(TAIL) - len(start)
    return body(start + statement * min(STATEMENTS // 2 - 1, room // len(statement)))


def set_locals():
    """Locals, each of which is then set by an `if` of its own."""
    count = 5_400
    start = b"unsigned<32> " + b",".join(name_of(n).encode() for n in range(count)) + b";"
    sets = b"".join(b"if(a[%d])%s=b;" % (n % 32, name_of(n).encode()) for n in range(count))
    return body(start + sets)


def if_tree(levels, leaf):
    """An `if` whose branches are `if`s, so many deep."""
    if not levels:
        return leaf
    part = if_tree(levels - 1, leaf)
    return b"if(a[%d])%selse %s" % (levels, part, part)


def written_everywhere():
    """Sixteen registers, all written in each branch of an `if` tree."""
    entries = b"".join(b"register unsigned<32> r%d;" % n for n in range(16))
    leaf = b"{" + b"".join(b"r%d=b;" % n for n in range(16)) + b"}"
    text = if_tree(9, leaf)
    return state(entries, OPEN.split(b"instructions { ", 1)[1] + b"behavior: { unsigned<32> a = X[rs1]; unsigned<32> b = X[rs2]; " + text + b" } } ")


STATEMENT_TEXTS = [
    Text("empty statements", "set A", lambda: most(b";")),
    Text("a statement too many", "refused Extension Size", lambda: body(b";" * (STATEMENTS + 1))),
    Text("empty statements to the file's end", "refused Extension Size", lambda: filled(HEAD, b";", TAIL)),
    Text("sums", "set A", lambda: most(b"a=(unsigned<32>)(a+b);")),
    Text("doubled sums", "set A", lambda: most(b"a=(unsigned<32>)(a+a);")),
    Text("as many names as fit", "set A", lambda: most(b"a=a" + b"^b" * 29 + b";"), tight=True),
    Text("products of 128 bits", "set A", lambda: most(b"a=(unsigned<32>)((a::b)*(b::a));")),
    Text("ifs that set one local", "set A", lambda: most(b"if(a)a=b;", 2)),
    Text("locals that ifs set", "set A", set_locals, tight=True, large=True),
    Text("8,000 locals behind ifs", "set A", lambda: ifs_of_locals(8_000, b"if(a)a=b;"), tight=True, large=True),
    Text("200,000 locals behind ifs", "set A", lambda: ifs_of_locals(200_000, b"if(a)a=b;"), tight=True, large=True),
    Text("200,000 locals behind empty ifs", "set A", lambda: ifs_of_locals(200_000, b"if(a);"), tight=True, large=True),
    Text("an if tree that writes 16 registers", "set A", written_everywhere, tight=True),
    Text("loops around 31 names", "set A", lambda: body(LOOPS + names_in(27)), tight=True),
    Text("loops around 729 names", "set A", lambda: body(LOOPS + names_in(729)), tight=True, large=True),
    Text("loops around 300,000 names", "set A", lambda: body(LOOPS + names_in(295_245)), tight=True, large=True),
    Text("loops around 729 locals", "set A", lambda: body(LOOPS + locals_in(729)), tight=True, large=True),
    Text("loops around 200,000 locals", "set A", lambda: body(LOOPS + locals_in(200_000)), tight=True, large=True),
    Text("a loop whose head has 300,000 literals", "set A", lambda: body(b"for(int i=0;i<128+(" + b"^".join([tree_of(b"0", 10)] * 5) + b");i++)a=b;"), tight=True, large=True),
    Text("loops around such a head", "set A", lambda: body(LOOPS + b"for(int k=0;k<(" + b"^".join([tree_of(b"0", 10)] * 5) + b");k++)a=b;"), tight=True, large=True),
]

# Graphs, schedules and modules


def chain_of(unit, count):
    """So many operations one behind the other, as a loop."""
    return b"{unsigned<32> a=X[rs1];unsigned<32> b=X[rs2];for(int i=0;i<%d;i++)%sX[rd]=a;}" % (count, unit)


def drawn(count, seed):
    """So many exclusive ors, each of two of the values before it, drawn."""
    draw = random.Random(seed)
    parts = [b"{unsigned<32> v0=X[rs1];unsigned<32> v1=X[rs2];"]
    for n in range(2, count + 2):
        parts.append(b"unsigned<32> v%d=v%d^v%d;" % (n, draw.randrange(n), draw.randrange(max(0, n - 4), n)))
    used = b"^".join(b"v%d" % n for n in range(count + 2 - 40, count + 2))
    parts.append(b"X[rd]=%s;}" % used)
    return b"".join(parts)


def triangle(count):
    """Products one behind the other, all of which are summed up at the end in the order of their making, so that each is kept for long."""
    parts = [b"{unsigned<32> v0=X[rs1];"]
    for n in range(1, count):
        parts.append(b"unsigned<32> v%d=(unsigned<32>)(v%d*v%d);" % (n, n - 1, n - 1))
    tail = b"^".join(b"v%d" % n for n in range(count))
    parts.append(b"unsigned<32> s=%s;X[rd]=(unsigned<32>)(s*v%d);}" % (tail, count - 1))
    return b"".join(parts)


def with_tables(count, lookups):
    """Instructions that look up a table of 4,096 entries, each time at what was found."""
    entries = b"const unsigned<12> T[4096]={%s};" % b",".join(b"%d" % (n * 1_237 % 4_096) for n in range(4_096))
    behaviour = b"{unsigned<12> x=X[rs1][11:0];" + b"x=T[x];" * lookups + b"X[rd]=x;}"
    return state(entries, instructions(count, lambda _: behaviour))


def with_shifts(count):
    """Instructions of shifts of 128 bits by an amount that is not known."""
    behaviour = b"{unsigned<128> x=X[rs1];unsigned<7> y=X[rs2][6:0];for(int i=0;i<50;i++){x=x<<y;x=x^X[rs2];}X[rd]=x[31:0];}"
    return state(b"", instructions(count, lambda _: behaviour))


def with_registers():
    """64 instructions and 8 blocks that read and write all 16 registers."""
    entries = b"".join(b"register unsigned<128> r%d;" % n for n in range(16))
    turned = b"".join(b"r%d=r%d;" % (n, (n + 1) % 16) for n in range(16))
    kept = b"".join(b"unsigned<128> v%d=r%d;" % (n, n) for n in range(16))
    turned = kept + b"".join(b"r%d=v%d^X[rs1];" % (n, (n + 1) % 16) for n in range(16))
    blocks = b"".join(b"b%d{%s%s}" % (m, kept, b"".join(b"if(v%d[%d])r%d=~v%d;" % (n, m, n, n) for n in range(16))) for m in range(8))
    text = state(entries, instructions(64, lambda _: b"{" + turned + b"X[rd]=v0[31:0];}"))
    return text[:-1] + b"always{" + blocks + b"}}"


SCHEDULED = [
    Text("64 chains of 253 operations", "set A", lambda: state(b"", instructions(64, lambda _: chain_of(b"a=(unsigned<32>)(a+b);", 125))), tight=True),
    Text("64 graphs of 250 drawn operations", "set A", lambda: state(b"", instructions(64, lambda n: drawn(210, n))), tight=True),
    Text("64 chains whose values are kept", "set A", lambda: state(b"", instructions(64, lambda _: triangle(50))), tight=True),
    Text("64 shifts of 128 bits", "set A", lambda: with_shifts(64), tight=True),
    Text("16 registers in all behaviours", "set A", with_registers, tight=True),
    Text("one instruction of 250 lookups in 4,096 entries", "set A", lambda: with_tables(1, 250), tight=True),
    Text("64 instructions of 250 lookups in 4,096 entries", "set A", lambda: with_tables(64, 250), tight=True, large=True),
]

ALL = TOKENS + NESTING + DECLARED + STATEMENT_TEXTS + SCHEDULED
