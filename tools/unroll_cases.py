#!/usr/bin/env python3
"""Makes the cases `unrolled` of crates/text_cases: unroll_cases.py VECTORS ...

Each VECTORS is a file of JSON lines, plain or gzipped, a case a line, whose `files` or `ext` have texts of extensions; taken are those with
a loop that are not nested too deep, and before them the texts of tools/unroll (in a file with several, lines of four dashes part them). The answers come from the parser and the unrolling below, which follow docs/LANGUAGE.md
and share nothing with the crates.
"""
import gzip
import json
import pathlib
import re
import sys

from case_files import replace

TOP = pathlib.Path(__file__).resolve().parent.parent
MOST_TURNS, MOST_STATEMENTS = 128, 16384

TOKEN = re.compile(
    r"(?P<space>[ \t\r\n]+|//[^\n]*|/\*.*?\*/)|(?P<string>\"[^\"\n]*\")|(?P<number>[0-9][A-Za-z0-9_']*)|(?P<name>[A-Za-z_][A-Za-z0-9_]*)"
    r"|(?P<symbol><<=|>>=|\+\+|--|\+=|-=|\*=|&=|\|=|\^=|<<|>>|==|!=|<=|>=|&&|\|\||::|[-+*/&|^~!<>=?:;,(){}\[\]])",
    re.DOTALL,
)
CHAIN = [["::"], ["||"], ["&&"], ["|"], ["^"], ["&"], ["==", "!="], ["<", "<=", ">", ">="], ["<<", ">>"], ["+", "-"], ["*"]]
ASSIGNS = ["=", "+=", "-=", "*=", "&=", "|=", "^=", "<<=", ">>="]


class Refused(Exception):
    pass


def width_of(value):
    return max(1, value.bit_length())


def literal(text):
    """The width and the value of a literal, as docs/LANGUAGE.md has them."""
    plain = text.replace("_", "")
    if "'" in plain:
        width, rest = plain.split("'")
        return int(width), int(rest[1:], {"d": 10, "b": 2, "h": 16}[rest[0]])
    value = int(plain[2:], 16) if plain.startswith("0x") else int(plain[2:], 2) if plain.startswith("0b") else int(plain)
    return width_of(value), value


class Parser:
    """Descent over the tokens. A node is a list: its kind, its span, its parts. A production is given as its node, with its own first byte."""

    def __init__(self, text):
        self.tokens, at = [], 0
        while at < len(text):
            found = TOKEN.match(text, at)
            if found is None:
                raise Refused
            if found.lastgroup != "space":
                self.tokens.append((found.lastgroup, found.group(), found.start(), found.end()))
            at = found.end()
        self.at = 0

    def peek(self, ahead=0):
        place = self.at + ahead
        return self.tokens[place][1] if place < len(self.tokens) else None

    def begin(self):
        return self.tokens[self.at][2] if self.at < len(self.tokens) else None

    def end(self):
        return self.tokens[self.at - 1][3]

    def take(self, word=None):
        if self.at >= len(self.tokens) or (word is not None and self.peek() != word):
            raise Refused
        self.at += 1
        return self.tokens[self.at - 1][1]

    def accept(self, word):
        if self.peek() == word:
            self.at += 1
            return True
        return False

    # expressions
    def expr(self):
        start = self.begin()
        left = self.chain(0)
        if self.accept("?"):
            yes = self.expr()
            self.take(":")
            no = self.expr()
            return ["?", (start, self.end()), left, yes, no]
        return left

    def chain(self, level):
        if level == len(CHAIN):
            return self.unary()
        start = self.begin()
        left = self.chain(level + 1)
        while self.peek() in CHAIN[level]:
            op = self.take()
            right = self.chain(level + 1)
            left = ["binary", (start, self.end()), op, left, right]
        return left

    def is_type(self, ahead):
        word, after = self.peek(ahead), self.peek(ahead + 1)
        return word in ("int", "bool") or (word in ("signed", "unsigned") and after == "<")

    def unary(self):
        start = self.begin()
        if self.peek() in ("-", "~", "!"):
            op = self.take()
            inner = self.unary()
            return ["unary", (start, self.end()), op, inner]
        if self.peek() == "(" and (self.is_type(1) or (self.peek(1) in ("signed", "unsigned") and self.peek(2) == ")")):
            self.take("(")
            to = self.type() if self.is_type(0) else self.take()
            self.take(")")
            inner = self.unary()
            return ["cast", (start, self.end()), to, inner]
        return self.post()

    def post(self):
        start = self.begin()
        node = self.prim()
        while self.accept("["):
            first = self.expr()
            if self.accept(":"):
                second = self.expr()
                self.take("]")
                node = ["range", (start, self.end()), node, first, second]
            else:
                self.take("]")
                node = ["index", (start, self.end()), node, first]
        return node

    def prim(self):
        if self.accept("("):
            node = self.expr()
            self.take(")")
            return node
        if self.at >= len(self.tokens):
            raise Refused
        kind, text, start, end = self.tokens[self.at]
        self.at += 1
        if kind == "number":
            return ["literal", (start, end), *literal(text)]
        if text in ("true", "false"):
            return ["literal", (start, end), 1, int(text == "true")]
        if text in ("PC", "X", "MEM"):
            return [text, (start, end)]
        if kind == "name":
            return ["name", (start, end), text]
        raise Refused

    def type(self):
        word = self.take()
        if word in ("signed", "unsigned"):
            self.take("<")
            width = literal(self.take())[1]
            self.take(">")
            return f"{word}<{width}>"
        return word

    # statements
    def assign(self):
        start = self.begin()
        if self.peek() in ("++", "--"):
            at = self.begin()
            op = self.take()[0]
            symbol = (at, self.end())
            place = self.place()
            return ["assign", (start, self.end()), op, place, ["literal", symbol, 1, 1]]
        place = self.place()
        if self.peek() in ("++", "--"):
            at = self.begin()
            op = self.take()[0]
            return ["assign", (start, self.end()), op, place, ["literal", (at, self.end()), 1, 1]]
        op = self.take()
        if op not in ASSIGNS:
            raise Refused
        value = self.expr()
        return ["assign", (start, self.end()), op[:-1], place, value]

    def place(self):
        word = self.take()
        if word == "X":
            self.take("[")
            index = self.expr()
            self.take("]")
            return ["X", index]
        if word == "MEM":
            self.take("[")
            parts = [self.expr()]
            if self.accept(":"):
                parts.append(self.expr())
            self.take("]")
            return ["MEM", *parts]
        return [word]

    def stmt(self):
        start = self.begin()
        if self.accept("{"):
            parts = []
            while not self.accept("}"):
                parts.append(self.stmt())
            return ["block", (start, self.end()), parts]
        if self.accept(";"):
            return ["empty", (start, self.end())]
        if self.accept("if"):
            self.take("(")
            test = self.expr()
            self.take(")")
            parts = [self.stmt()]
            if self.accept("else"):
                parts.append(self.stmt())
            return ["if", (start, self.end()), test, parts]
        if self.accept("for"):
            self.take("(")
            kind = self.type() if self.is_type(0) else "-"
            name = self.take()
            self.take("=")
            first = self.expr()
            self.take(";")
            test = self.expr()
            self.take(";")
            last = self.assign()
            self.take(")")
            body = self.stmt()
            return ["for", (start, self.end()), kind, name, first, test, last, body]
        if self.accept("spawn"):
            body = self.stmt()
            return ["spawn", (start, self.end()), body]
        if self.is_type(0):
            kind = self.type()
            decls = [self.decl()]
            while self.accept(","):
                decls.append(self.decl())
            self.take(";")
            return ["let", (start, self.end()), kind, decls]
        assign = self.assign()
        self.take(";")
        return ["set", (start, self.end()), assign]

    def decl(self):
        name = self.take()
        return [name, self.expr() if self.accept("=") else None]

    # texts
    def text(self):
        start = self.begin()
        self.take("InstructionSet")
        name = self.take()
        for word in ("extends", "RV32I", "{"):
            self.take(word)
        sections = []
        while not self.accept("}"):
            sections.append(self.section())
        if self.at != len(self.tokens):
            raise Refused
        return [name, (start, self.end()), sections]

    def section(self):
        word = self.take()
        self.take("{")
        parts = []
        while not self.accept("}"):
            parts.append({"architectural_state": self.state, "instructions": self.instr, "always": self.always}[word]())
        return [word, parts]

    def state(self):
        register = self.accept("register")
        if self.accept("const"):
            kind, name = self.type(), self.take()
            self.take("[")
            length = literal(self.take())[1]
            for word in ("]", "=", "{"):
                self.take(word)
            entries = [self.expr()]
            while self.accept(","):
                entries.append(self.expr())
            self.take("}")
            self.take(";")
            return ["const", kind, name, length, entries]
        if not register:
            raise Refused
        kind, name = self.type(), self.take()
        value = self.expr() if self.accept("=") else None
        self.take(";")
        return ["register", kind, name, value]

    def piece(self):
        kind, text = self.tokens[self.at][:2]
        self.take()
        if kind == "number":
            width, value = literal(text)
            return f"{width}'{value}"
        self.take("[")
        high = literal(self.take())[1]
        self.take(":")
        low = literal(self.take())[1]
        self.take("]")
        return f"{text}[{high}:{low}]"

    def instr(self):
        name = self.take()
        for word in ("{", "encoding", ":"):
            self.take(word)
        pieces = [self.piece()]
        while self.accept("::"):
            pieces.append(self.piece())
        self.take(";")
        if self.accept("assembly"):
            while self.take() != ";":
                pass
        self.take("behavior")
        self.take(":")
        body = self.stmt()
        self.take("}")
        return [name, pieces, body]

    def always(self):
        name = self.take()
        if self.peek() != "{":
            raise Refused
        return [name, self.stmt()]


# ---- numbers with their types, (signed, width, value); None where an expression has no type

def cut(signed, width, value):
    value %= 1 << width
    return value - (1 << width) if signed and value >> (width - 1) else value


def common(a, b):
    if a[0] == b[0]:
        return a[0], max(a[1], b[1])
    signed, unsigned = (a, b) if a[0] else (b, a)
    return True, max(signed[1], unsigned[1] + 1)


def binary(op, a, b):
    if a is None or b is None:
        return None
    (sa, wa, x), (sb, wb, y) = a, b
    if op in ("+", "-"):
        signed = sa or sb or op == "-"
        width = max(wa + (sb and not sa), wb + (sa and not sb)) + 1
        value = x + y if op == "+" else x - y
    elif op == "*":
        signed, width, value = sa or sb, wa + wb, x * y
    elif op in ("&", "|", "^"):
        if sa != sb:
            return None
        signed, width = sa, max(wa, wb)
        value = cut(signed, width, {"&": x & y, "|": x | y, "^": x ^ y}[op])
    elif op in ("<<", ">>"):
        if sb:
            return None
        signed, width = sa, wa
        value = x >> y if op == ">>" else cut(sa, wa, x << min(y, 200))
    elif op == "::":
        signed, width = False, wa + wb
        value = (x % (1 << wa)) << wb | y % (1 << wb)
    elif op in ("&&", "||"):
        signed, width = False, 1
        value = int(bool(x) and bool(y)) if op == "&&" else int(bool(x) or bool(y))
    else:
        if common(a, b)[1] > 128:
            return None
        signed, width = False, 1
        value = int({"==": x == y, "!=": x != y, "<": x < y, "<=": x <= y, ">": x > y, ">=": x >= y}[op])
    return (bool(signed), width, value) if width <= 128 else None


def number(node, names):
    """The number of an expression in a loop's head, None where it has none."""
    kind = node[0]
    if kind == "literal":
        return False, node[2], node[3]
    if kind == "name":
        return (True, 32, names[node[2]]) if node[2] in names else None
    if kind == "unary":
        a = number(node[3], names)
        if a is None:
            return None
        if node[2] == "-":
            return (True, a[1] + 1, -a[2]) if a[1] < 128 else None
        if node[2] == "~":
            return a[0], a[1], cut(a[0], a[1], ~a[2])
        return False, 1, int(a[2] == 0)
    if kind == "binary":
        return binary(node[2], number(node[3], names), number(node[4], names))
    if kind == "?":
        c, x, y = (number(part, names) for part in node[2:])
        if c is None or x is None or y is None:
            return None
        signed, width = common(x, y)
        return (signed, width, x[2] if c[2] else y[2]) if width <= 128 else None
    if kind == "cast":
        a = number(node[3], names)
        if a is None:
            return None
        signed, width = cast_type(node[2], a)
        return signed, width, cut(signed, width, a[2])
    return None


def cast_type(to, a):
    if to in ("signed", "unsigned"):
        return to == "signed", a[1]
    if to in ("int", "bool"):
        return (True, 32) if to == "int" else (False, 1)
    return to.startswith("signed"), int(to[to.index("<") + 1:-1])


def touches(name, node):
    kind = node[0]
    if kind == "block":
        return any(touches(name, part) for part in node[2])
    if kind == "let":
        return any(decl[0] == name for decl in node[3])
    if kind == "set":
        return node[2][3] == [name]
    if kind == "if":
        return any(touches(name, part) for part in node[3])
    if kind == "for":
        return node[3] == name or node[6][3] == [name] or touches(name, node[7])
    return kind == "spawn" and touches(name, node[2])


def fault(kind, span):
    return Refused(f"{kind} {span[0]} {span[1]}")


def is_int(value):
    return -(2**31) <= value < 2**31


def turns(node, names):
    """The values of the loop's variable, one for each turn."""
    _, span, _, name, first, test, last, body = node
    if last[3] != [name]:
        raise fault("Bound", span)
    start = number(first, names)
    if start is None or following(node, names, start[2]) is None:
        raise fault("Bound", span)
    values, value = [], start
    while True:
        if value is None or not is_int(value[2]):
            raise fault("Bound", span)
        held = number(test, {**names, name: value[2]})
        if held is None:
            raise fault("Bound", span)
        if held[2] == 0:
            break
        if len(values) == MOST_TURNS:
            raise fault("Turns", span)
        values.append(value[2])
        value = following(node, names, value[2])
    if touches(name, body):
        raise fault("Assigned", span)
    return values


def following(node, names, value):
    name, last = node[3], node[6]
    given = number(last[4], {**names, name: value})
    return binary(last[2], (True, 32, value), given) if last[2] else given


class Unroller:
    def __init__(self):
        self.count = 0

    def counted(self, span):
        self.count += 1
        if self.count > MOST_STATEMENTS:
            raise fault("Size", span)

    def put(self, node, names):
        kind = node[0]
        if kind == "name":
            if node[2] not in names:
                return node
            value = names[node[2]]
            plain = ["literal", node[1], width_of(abs(value)), abs(value)]
            return ["unary", node[1], "-", plain] if value < 0 else plain
        return [self.put(part, names) if isinstance(part, list) else part for part in node]

    def put_assign(self, assign, names):
        kind, span, op, place, value = assign
        place = [place[0], *(self.put(part, names) for part in place[1:])]
        return [kind, span, op, place, self.put(value, names)]

    def alone(self, node, names):
        kind, span = node[:2]
        if kind == "for":
            values = turns(node, names)
            self.counted(span)
            return ["block", span, self.copies(node, values, names)]
        self.counted(span)
        if kind == "block":
            return [kind, span, self.inside(node[2], names)]
        if kind == "let":
            return [kind, span, node[2], [[name, value and self.put(value, names)] for name, value in node[3]]]
        if kind == "set":
            return [kind, span, self.put_assign(node[2], names)]
        if kind == "if":
            return [kind, span, self.put(node[2], names), [self.alone(part, names) for part in node[3]]]
        if kind == "spawn":
            return [kind, span, self.alone(node[2], names)]
        return node

    def copies(self, node, values, names):
        copies = []
        for value in values:
            self.counted(node[1])
            copies.append(["block", node[1], self.inside([node[7]], {**names, node[3]: value})])
        return copies

    def inside(self, parts, names):
        result = []
        for part in parts:
            if part[0] == "for":
                result.extend(self.copies(part, turns(part, names), names))
            else:
                result.append(self.alone(part, names))
        return result


# ---- printing
def shown(node):
    kind = node[0]
    if kind == "literal":
        return f"{node[2]}'{node[3]}"
    if kind == "name":
        return node[2]
    if kind in ("PC", "X", "MEM"):
        return kind
    head = {"index": "[]", "range": "[:]", "?": "?"}.get(kind) or (f"cast {node[2]}" if kind == "cast" else node[2])
    parts = node[2:] if kind in ("index", "range", "?") else node[3:]
    return f"({head} {' '.join(shown(part) for part in parts)})"


def shown_place(place):
    return f"({place[0]} {' '.join(shown(part) for part in place[1:])})" if len(place) > 1 else place[0]


def shown_stmt(node):
    kind = node[0]
    if kind == "block":
        return "(block" + "".join(" " + shown_stmt(part) for part in node[2]) + ")"
    if kind == "empty":
        return ";"
    if kind == "let":
        decls = [name if value is None else f"({name} {shown(value)})" for name, value in node[3]]
        return f"(let {node[2]} {' '.join(decls)})"
    if kind == "set":
        return f"({node[2][2]}= {shown_place(node[2][3])} {shown(node[2][4])})"
    if kind == "if":
        return f"(if {shown(node[2])} {' '.join(shown_stmt(part) for part in node[3])})"
    return f"(spawn {shown_stmt(node[2])})"


def shown_part(word, part):
    if word == "architectural_state":
        value = f" {shown(part[3])}" if part[0] == "register" and part[3] is not None else ""
        if part[0] == "const":
            return f"(const {part[1]} {part[2]}[{part[3]}] {' '.join(shown(entry) for entry in part[4])})"
        return f"(register {part[1]} {part[2]}{value})"
    if word == "instructions":
        return f"({part[0]} ({' '.join(part[1])}) {shown_stmt(part[2])})"
    return f"({part[0]} {shown_stmt(part[1])})"


def spans(node):
    """The spans of a statement or an expression, and then of those in it, in order."""
    yield node[1]
    parts = {"set": lambda: [*node[2][3][1:], node[2][4]], "let": lambda: [value for _, value in node[3] if value is not None],
             "block": lambda: node[2], "if": lambda: [node[2], *node[3]]}.get(node[0], lambda: [part for part in node[2:] if isinstance(part, list)])()
    for part in parts:
        yield from spans(part)


def answer(text):
    try:
        name, span, sections = Parser(text).text()
    except Refused:
        return None
    unroller, words, places = Unroller(), [], []
    try:
        for word, parts in sections:
            if word != "architectural_state":
                parts = [[*part[:-1], unroller.alone(part[-1], {})] for part in parts]
                places.extend(place for part in parts for place in spans(part[-1]))
            head = {"architectural_state": "state"}.get(word, word)
            words.append("(" + head + "".join(" " + shown_part(word, part) for part in parts) + ")")
    except Refused as refused:
        return str(refused)
    tree = f"(set {name}" + "".join(" " + word for word in words) + f") @{span[0]}-{span[1]}"
    return tree + " :" + "".join(f" {place[0]}-{place[1]}" for place in places)


def texts_of(path):
    opened = gzip.open(path, "rt") if path.endswith(".gz") else open(path)
    with opened as file:
        for line in file:
            case = json.loads(line)
            if case.get("stdout", "").startswith("refused Extension Deep"):
                continue
            yield from [case["ext"]] if "ext" in case else [text for name, text in case.get("files", {}).items() if name.endswith(".core_desc")]


def main():
    files = sorted((TOP / "tools" / "unroll").glob("*.core_desc*"))
    taken = [text for path in files for text in path.read_text().split("----\n")]
    for path in sys.argv[1:]:
        for text in texts_of(path):
            if isinstance(text, str) and re.search(r"\bfor\b", text) and text not in taken:
                taken.append(text)
    answered = [(text, answer(text)) for text in taken if text.isascii()]
    replace("text_cases", "unrolled", [(text, f"{line}\n") for text, line in answered if line is not None and len(line) < 20_000])


if __name__ == "__main__":
    main()
