#!/usr/bin/env python3
"""Makes the cases `tokens` of crates/text_cases.

They are texts, and by hand their tokens with their places, or why they have none."""
from case_files import replace

NAME64 = "a123456789_123456789_123456789_123456789_123456789_123456789_123"
GREATEST = 2**128 - 1

READ = [
    ("0", "unsized 1 0 0 1"),
    ("1", "unsized 1 1 0 1"),
    ("2", "unsized 2 2 0 1"),
    ("255", "unsized 8 255 0 3"),
    ("2_5_6", "unsized 9 256 0 5"),
    ("0x0fF", "unsized 8 255 0 5"),
    ("0b1_01", "unsized 3 5 0 6"),
    ("5'd31", "sized 5 31 0 5"),
    ("4'b00_11", "sized 4 3 0 8"),
    ("1_28'h0", "sized 128 0 0 7"),
    (str(GREATEST), f"unsized 128 {GREATEST} 0 39"),
    ("128'h" + "f" * 32, f"sized 128 {GREATEST} 0 37"),
    ("", ""),
    (" \t\r\n", ""),
    ("_a9", "name 0 3"),
    ("InstructionSet", "word 0 0 14"),
    ("false", "word 23 0 5"),
    ("iff", "name 0 3"),
    ("If", "name 0 2"),
    ("<<=", "symbol 17 0 3"),
    ("<< =", "symbol 33 0 2, symbol 10 3 4"),
    ("+++", "symbol 19 0 2, symbol 35 2 3"),
    (":::", "symbol 9 0 2, symbol 8 2 3"),
    ("a<=1;", "name 0 1, symbol 30 1 3, unsized 1 1 3 4, symbol 6 4 5"),
    ("X[2]", "word 20 0 1, symbol 2 1 2, unsized 2 2 2 3, symbol 3 3 4"),
    ('"a /* b"', "string 0 8"),
    ('""""', "string 0 2, string 2 4"),
    (NAME64, "name 0 64"),
    ("// a", ""),
    ("//\n;", "symbol 6 3 4"),
    ("// /*\n;", "symbol 6 6 7"),
    ("/* a\n */;", "symbol 6 8 9"),
    ("/*/ */;", "symbol 6 6 7"),
    ("/***/;", "symbol 6 5 6"),
    ("/**/*/**/", "symbol 37 4 5"),
]
REFUSED = [(text, "BadNumber 0") for text in ["5'd32", "0x", "0b", "0b2", "00", "0_1", "1_", "1__0", "0x_1", "12a", "0X1", "08'd1", "0'd0", "129'd1", "8'", "8'h", "8'o7", "8'd1'd1", str(GREATEST + 1)]] + [
    ("x = 1g;", "BadNumber 4"),
    ("/* a", "Unclosed 0"),
    ("/*", "Unclosed 0"),
    ("; /*/", "Unclosed 2"),
    ('"a\nb"', "Unclosed 0"),
    ('a "b', "Unclosed 2"),
    ("/", "BadByte 0"),
    ("a / b", "BadByte 2"),
    ("a\0", "BadByte 1"),
    ("\u00e9", "BadByte 0"),
    ("a % b", "BadByte 2"),
    (f"1 {NAME64}4", "BadByte 2"),
]

replace("text_cases", "tokens", [(text, f"{line}\n") for text, line in READ + REFUSED])
