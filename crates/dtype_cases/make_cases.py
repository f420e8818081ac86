#!/usr/bin/env python3
"""Writes the cases of this crate: `stdin`, which the program reads, and `stdout`, which it must then print.

Run it in any folder, with no argument. What is to be printed is worked out here from the rules of dtype texts and ids lists, never
from a run. Where a case is about a refusal or an equality, the answer stands beside it too, and is compared with what the rules give.

A line of `stdin` is NAME QUESTION BYTES WORDS. The questions are:

    text TEXT DTYPE ..            reads a dtype text: the refusal, or each line of the text, from line 0 to the one after the last,
                                  and then each of the dtypes in use
    equals TEXT DTYPE TEXT DTYPE  whether the first dtype equals the second, and the second the first
    word WORD NUMBER              the kind that a word stands for, with its number if it is a number type, the null mark that the
                                  word stands for, and the number type that the number stands for
    ids FILE STEP ..              reads a file of ids: the refusal, or the answer to each step, and the list after them

DTYPE is the number of a line, or a kind and a null mark that stand in no text, as `u8,req`. STEP is one of:

    add=ID        adds an id
    all=FILE      adds all ids of the list that a file holds
    trial=FILE    adds each of them under a guard, and drops the guard
    keep=FILE     adds each of them under a guard, and confirms the guard
    place=ID      the first place of an id
    close         closes the list

TEXT, WORD, ID and FILE are bytes in parts between `|`. A part may end with how often it is repeated: `a;*64` is sixty-four lines, and
`*0` is no byte. Seven letters stand for other bytes than their own: `,` for 09, `;` for 0A, `^` for 0D, `_` for 20, `!` for 00, `?`
for 80 and `~` for FF.

In `stdout`, `-` is said where nothing is found. A dtype is its kind, its null mark, the number of its children, the next line that is
not below it, and the name and the line of each child, with the answer to one child more. A list is whether it is open, its
length, and each id, with the answers to the place after the last, to 256 and to 65,535.
"""

import pathlib
import re

HERE = pathlib.Path(__file__).parent
CASES = []
ANSWERS = []
NAMES = set()


# Bytes, in the notation of the cases and in that of the answers.

LETTERS = {",": 0x09, ";": 0x0A, "^": 0x0D, "_": 0x20, "!": 0x00, "?": 0x80, "~": 0xFF}


def expand(word):
    """The bytes that a word of a case writes."""
    whole = b""
    for part in word.split("|"):
        letters, _, times = part.partition("*")
        piece = b"".join(bytes([LETTERS[letter]]) if letter in LETTERS else letter.encode() for letter in letters)
        whole += piece * int(times or "1")
    return whole


def quoted(whole):
    """Bytes in quotes, with an escape for each that is not a printable letter of ASCII."""
    short = {9: r"\t", 10: r"\n", 13: r"\r", 34: r"\"", 39: r"\'", 92: r"\\"}
    return '"' + "".join(short.get(b) or (chr(b) if 32 <= b < 127 else f"\\x{b:02x}") for b in whole) + '"'


def or_dash(found):
    return "-" if found is None else str(found)


# The rules of dtype texts.

NUMBER_TYPES = ["u8", "u16", "u32", "u64", "i8", "i16", "i32", "i64", "f16", "f32", "f64"]
KINDS = ["bool", "utf8", "binary", "list", "struct"] + NUMBER_TYPES
MARKS = ["null", "req"]
FORM = re.compile(rf"(0|[1-9][0-9]*)\t({'|'.join(KINDS)})\t({'|'.join(MARKS)})\t([^\t]*)".encode(), re.DOTALL)


class Row:
    """A line in form. Once the text is accepted, it has its children, and `end` is the line after all below it."""

    def __init__(self, depth, kind, mark, name):
        self.depth, self.kind, self.mark, self.name = int(depth), kind.decode(), mark.decode(), name
        self.children = []

    def value(self):
        """What the equality of dtypes compares."""
        return self.kind, self.mark, [(child.name, child.value()) for child in self.children]


class Refused(Exception):
    """A refusal, in the words of an answer."""


def rows_of(whole):
    """The lines of a text: a Row, or None where a line is not in form."""
    *lines, rest = whole.split(b"\n")
    if len(whole) > 65536 or len(lines) + (rest != b"") > 256:
        raise Refused("refused 1 at line -")
    matches = [FORM.fullmatch(line) for line in lines]
    rows = [match and Row(*match.groups()) for match in matches]
    return rows + [None] if rest or not rows else rows


def takes(parent, row):
    """Whether a line that has its children so far takes one more."""
    if parent.kind == "struct":
        return 1 <= len(row.name) <= 64
    return parent.kind == "list" and not parent.children and row.name == b""


def read(whole):
    """The lines of a text. Each is put under its parent, which is the last of the open lines that is one less deep."""
    rows = rows_of(whole)
    above = []
    for line, row in enumerate(rows, 1):
        if row is None:
            raise Refused(f"refused 2 at line {line}")
        if line == 1:
            fits = row.depth == 0 and row.name == b""
        else:
            fits = 1 <= row.depth <= min(15, len(above)) and takes(above[row.depth - 1], row)
        if row.kind == "list":
            fits &= line < len(rows) and (rows[line] is None or rows[line].depth > row.depth)
        if not fits:
            raise Refused(f"refused 3 at line {line}")
        row.line = line
        if line > 1:
            above[row.depth - 1].children.append(row)
        above[row.depth:] = [row]
        for open_row in above:
            open_row.end = line + 1
    return rows


def dtype_answer(rows, word):
    """All that is asked of a dtype in use."""
    if "," in word:
        kind, mark = word.split(",")
        return f" {kind} {mark} 0 - -"
    line = int(word)
    if not 1 <= line <= len(rows):
        return " - - - - -"
    row = rows[line - 1]
    next_line = row.end if row.end <= len(rows) else None
    children = "".join(f" {quoted(child.name)} {child.line}" for child in row.children)
    return f" {row.kind} {row.mark} {len(row.children)} {or_dash(next_line)}{children} -"


def text_answer(whole, used):
    try:
        rows = read(whole)
    except Refused as refused:
        return f" {refused}"
    lines = [str(n) for n in range(len(rows) + 2)]
    return " accepted" + "".join(f"\n  {word}:{dtype_answer(rows, word)}" for word in lines + used)


def word_answer(whole, number):
    """What a word and a number stand for."""
    word = whole.decode()
    kind = f" {word}" if word in KINDS else " -"
    if word in NUMBER_TYPES:
        kind += f" {NUMBER_TYPES.index(word)}"
    mark = word if word in MARKS else "-"
    return f"{kind} {mark} {NUMBER_TYPES[number] if number < len(NUMBER_TYPES) else '-'}"


def value_of(whole, word):
    """What a dtype in use is, or None where there is no such line."""
    rows = read(whole)
    if "," in word:
        kind, mark = word.split(",")
        return kind, mark, []
    return rows[int(word) - 1].value() if 1 <= int(word) <= len(rows) else None


# The rules of ids lists.

class Ids:
    def __init__(self):
        self.ids, self.open = [], True

    def refusal(self, id):
        """The number of the refusal to add an id, or None."""
        if not 1 <= len(id) <= 64:
            return 4
        if not self.open:
            return 29
        return 5 if len(self.ids) >= 64 else None

    def add(self, id):
        number = self.refusal(id)
        if number:
            return f" refused {number}"
        self.ids.append(id)
        return " done"

    def place(self, id):
        return or_dash(self.ids.index(id) if id in self.ids else None)

    def listed(self):
        state = "open" if self.open else "closed"
        return f"\n  {state} {len(self.ids)}: " + " ".join([quoted(id) for id in self.ids] + ["-"] * 3)


def read_ids(whole):
    """The list that a file holds."""
    lines = whole.split(b"\n")
    if lines[-1] == b"":
        lines.pop()
    made = Ids()
    for line, id in enumerate(lines, 1):
        number = made.refusal(id)
        if number:
            raise Refused(f"refused {number} at line {line}")
        made.add(id)
    return made


def added_all(made, more):
    before = list(made.ids)
    for id in more:
        answer = made.add(id)
        if "refused" in answer:
            made.ids = before
            return answer
    return " done"


def tried(made, more, keeps):
    before = list(made.ids)
    answer = "".join(made.add(id) for id in more)
    if not keeps:
        made.ids = before
    return answer


def step_answer(made, step, word):
    """Takes a step on a list."""
    if step == "close":
        made.open = False
        return ""
    if step == "add":
        return made.add(expand(word))
    if step == "place":
        return f" {made.place(expand(word))}"
    more = read_ids(expand(word)).ids
    return added_all(made, more) if step == "all" else tried(made, more, {"trial": False, "keep": True}[step])


def ids_answer(whole, steps):
    try:
        made = read_ids(whole)
    except Refused as refused:
        return f" {refused}"
    return "".join(step_answer(made, *step.partition("=")[::2]) for step in steps) + made.listed()


# The lines of the two files.

def say(*lines):
    """A comment on the next cases."""
    CASES.extend(f"# {line}" for line in lines)


def case(name, question, words, answer):
    assert name not in NAMES, f"two cases are called {name}"
    assert " " not in name
    NAMES.add(name)
    CASES.append(f"{name} {question} {words}")
    ANSWERS.append(f"{name}:{answer}")


def text(name, word, expected="accepted", used=()):
    """A text to read, how the answer begins, and dtypes in use."""
    answer = text_answer(expand(word), list(used))
    assert answer[1:].split("\n")[0] == expected, f"{name}: the rules give{answer}"
    case(name, "text", " ".join([word, *used]), answer)


def word(name, written, number):
    case(name, "word", f"{written} {number}", word_answer(expand(written), number))


def equals(name, word, used, other_word, other_used, expected):
    """Two dtypes in use, and whether they are equal."""
    value, other = value_of(expand(word), used), value_of(expand(other_word), other_used)
    answer = value is not None and value == other
    assert answer == expected, f"{name}: the rules give {answer}"
    said = str(answer).lower()
    case(name, "equals", f"{word} {used} {other_word} {other_used}", f" {said} {said}")


def ids(name, file, *steps, refused=None):
    """A file of ids, steps on the list that it holds, and the number and the line of its refusal, if it is refused."""
    answer = ids_answer(expand(file), steps)
    if refused or "\n" not in answer:
        assert answer == f" refused {refused[0]} at line {refused[1]}", f"{name}: the rules give{answer}"
    case(name, "ids", " ".join([file, *steps]), answer)


# Dtype texts.

say("At most 65,536 bytes. A text of so many is refused too, but for a name that is too long, for its form, or for its lines.")
text("most-bytes", "0,bool,req,|n*65524|;", "refused 3 at line 1")
text("a-byte-too-many", "0,bool,req,|n*65525|;", "refused 1 at line -")
text("most-bytes-bad-first-line", "x*65535|;", "refused 2 at line 1")
text("a-byte-too-many-bad-first-line", "x*65536|;", "refused 1 at line -")
text("most-bytes-no-line-end", "x*65536", "refused 2 at line 1")
text("a-byte-too-many-no-line-end", "x*65537", "refused 1 at line -")
text("most-bytes-name-of-a-field", "0,struct,req,;1,u8,req,|n*65512|;", "refused 3 at line 2")
text("most-bytes-of-line-ends", ";*65536", "refused 1 at line -")

say("At most 256 lines. What follows the last line end is a line.")
text("most-lines", "0,struct,null,;|1,u8,req,a;*255")
text("a-line-too-many", "0,struct,null,;|1,u8,req,a;*256", "refused 1 at line -")
text("a-line-too-many-without-line-end", "0,struct,null,;|1,u8,req,a;*255|1,u8,req,a", "refused 1 at line -")
text("a-letter-after-most-lines", "0,struct,null,;|1,u8,req,a;*255|x", "refused 1 at line -")
text("most-lines-last-without-line-end", "0,struct,null,;|1,u8,req,a;*254|1,u8,req,a", "refused 2 at line 256")
text("most-lines-all-empty", ";*256", "refused 2 at line 1")
text("a-line-too-many-all-empty", ";*257", "refused 1 at line -")
text("a-line-too-many-bad-first-line", "x;|0,bool,req,;*256", "refused 1 at line -")

say("A text with no line, and with an empty one.")
text("no-byte", "*0", "refused 2 at line 1")
text("an-empty-line", ";", "refused 2 at line 1")
text("a-good-and-an-empty-line", "0,bool,req,;;", "refused 2 at line 2")
text("an-empty-line-between", "0,struct,req,;;1,u8,req,a;", "refused 2 at line 2")

say("Each kind as the first line. A list needs a child, and the others do not.")
for kind in KINDS:
    if kind == "list":
        text("first-line-list", "0,list,req,;", "refused 3 at line 1")
        text("first-line-list-null", "0,list,null,;1,bool,req,;")
    else:
        text(f"first-line-{kind}", f"0,{kind},req,;")
        text(f"first-line-{kind}-null", f"0,{kind},null,;")
say("Each kind as a field and as the child of a list.")
for kind in KINDS:
    below = "2,u16,req,;" if kind == "list" else ""
    text(f"field-{kind}", f"0,struct,req,;1,{kind},null,a;{below}")
    text(f"child-of-a-list-{kind}", f"0,list,req,;1,{kind},null,;{below}")

say("The depth is 0 on the first line only. It is at most 15, and at most one more than that of the line before.")
text("depth-1-first", "1,bool,req,;", "refused 3 at line 1")
text("depth-16-first", "16,bool,req,;", "refused 3 at line 1")
text("depth-0-again", "0,bool,req,;0,bool,req,;", "refused 3 at line 2")
text("depth-0-after-a-field", "0,struct,req,;1,u8,req,a;0,bool,req,;", "refused 3 at line 3")
text("depth-0-with-a-name", "0,struct,req,;0,u8,req,a;", "refused 3 at line 2")
text("depth-0-after-a-list", "0,list,req,;0,bool,req,;", "refused 3 at line 1")
STRUCTS = "0,struct,req,;" + "".join(f"{n},struct,req,s;" for n in range(1, 15))
text("depth-15", STRUCTS + "15,struct,req,s;")
text("depth-16", STRUCTS + "15,struct,req,s;16,u8,req,s;", "refused 3 at line 17")
text("depth-16-below-a-list", STRUCTS + "15,list,req,s;16,u8,req,;", "refused 3 at line 17")
text("depth-15-and-back-to-each", STRUCTS + "15,u8,req,s;" + "".join(f"{n},u8,req,t;" for n in range(15, 0, -1)))
text("depth-skips-a-level", "0,struct,req,;2,u8,req,a;", "refused 3 at line 2")
text("depth-skips-a-level-later", "0,struct,req,;1,struct,req,a;3,u8,req,b;", "refused 3 at line 3")
text("depth-skips-a-level-after-going-back", "0,struct,req,;1,struct,req,a;2,u8,req,b;1,u8,req,c;3,u8,req,d;",
     "refused 3 at line 5")
text("depth-2-after-a-field-without-children", "0,struct,req,;1,struct,req,a;2,u8,req,b;1,u8,req,c;2,u8,req,d;",
     "refused 3 at line 5")

say("A depth is decimal without leading zeros, of any length.")
for name, digits in {
    "two-zeros": "00", "a-leading-zero": "01", "a-leading-zero-of-two-digits": "015", "a-plus": "+1", "a-minus": "-1",
    "a-space-before": "_1", "a-space-after": "1_", "nothing": "", "a-letter-after": "1a", "a-letter-before": "a1",
    "a-hex-digit": "a", "the-byte-before-0": "/", "the-byte-after-9": ":", "a-minus-0": "-0", "a-point": "1.0",
    "an-exponent": "1e0", "a-digit-that-is-not-ascii": "١", "a-0-byte-after": "1!", "a-hundred-zeros": "0*100",
    "a-letter-after-a-hundred-digits": "1*100|x",
}.items():
    text(f"depth-of-{name}", f"0,struct,req,;|{digits}|,u8,req,a;", "refused 2 at line 2")
text("depth-of-two-zeros-first", "00,bool,req,;", "refused 2 at line 1")
text("depth-of-nothing-first", ",bool,req,;", "refused 2 at line 1")
for name, digits in {
    "a-hundred-digits": "1*100", "a-hundred-nines": "9*100", "256": "256", "257": "257", "4294967297": "4294967297",
    "18446744073709551617": "18446744073709551617", "99": "99", "160": "160", "17": "17", "10-twice": "1010", "26": "26",
}.items():
    text(f"depth-of-{name}", f"0,struct,req,;|{digits}|,u8,req,a;", "refused 3 at line 2")
text("depth-of-1-and-a-hundred-zeros", "0,struct,req,;1|0*100|,u8,req,a;", "refused 3 at line 2")
text("depth-of-1-and-a-hundred-zeros-first", "1|0*100|,bool,req,;", "refused 3 at line 1")

say("A kind is one of sixteen words.")
for name, kind in {
    "a-capital": "Bool", "all-capitals": "BOOL", "u128": "u128", "a-letter-more": "boolx", "a-letter-less": "boo", "nothing": "",
    "a-capital-at-the-end": "u8X", "a-space-before": "_bool", "a-space-after": "bool_", "f8": "f8", "u1": "u1",
    "a-0-byte-after": "bool!", "a-null-mark": "null", "two-words": "boolbool", "utf16": "utf16", "f128": "f128",
}.items():
    text(f"kind-of-{name}", f"0,|{kind}|,req,;", "refused 2 at line 1")

say("A null mark is one of two words.")
for name, mark in {
    "a-capital": "Null", "a-capital-req": "Req", "nothing": "", "a-letter-more": "reqq", "a-letter-less": "re",
    "a-letter-more-null": "nulll", "a-letter-less-null": "nul", "a-kind": "bool", "both": "nullreq", "a-space-before": "_req",
}.items():
    text(f"mark-of-{name}", f"0,bool,|{mark}|,;", "refused 2 at line 1")

say("A line has four fields.")
text("one-field", "0;", "refused 2 at line 1")
text("two-fields", "0,bool;", "refused 2 at line 1")
text("three-fields", "0,bool,req;", "refused 2 at line 1")
text("five-fields", "0,bool,req,,;", "refused 2 at line 1")
text("five-fields-with-a-name", "0,struct,req,;1,u8,req,a,b;", "refused 2 at line 2")
text("six-fields", "0,bool,req,,,;", "refused 2 at line 1")
text("three-tabs-only", ",,,;", "refused 2 at line 1")
text("three-fields-of-a-field", "0,struct,req,;1,u8,req;", "refused 2 at line 2")
text("an-empty-field-in-front", ",0,bool,req,;", "refused 2 at line 1")
text("spaces-between", "0_bool_req_;", "refused 2 at line 1")

say("A line ends with the byte 0A. What follows the last one, if anything, is a line that is not in form.")
text("no-line-end", "0,bool,req,", "refused 2 at line 1")
text("no-line-end-after-a-field", "0,struct,req,;1,u8,req,a", "refused 2 at line 2")
text("a-letter-after-the-last-line", "0,bool,req,;x", "refused 2 at line 2")
text("a-tab-after-the-last-line", "0,bool,req,;,", "refused 2 at line 2")
text("a-0-byte-after-the-last-line", "0,bool,req,;!", "refused 2 at line 2")
text("no-line-end-after-a-list", "0,list,req,;1,u8,req,", "refused 2 at line 2")
say("The byte 0D is part of the name.")
text("0d-before-the-line-end", "0,bool,req,^;", "refused 3 at line 1")
text("0d-before-the-line-end-of-a-field", "0,struct,req,;1,u8,req,a^;")
text("0d-before-the-line-end-below-a-list", "0,list,req,;1,u8,req,^;", "refused 3 at line 2")
text("0d-for-the-line-end", "0,bool,req,^", "refused 2 at line 1")
text("a-byte-order-mark", "\ufeff0,bool,req,;", "refused 2 at line 1")

say("A field has a name of 1 to 64 bytes. Every other name is empty.")
text("name-of-1-byte", "0,struct,req,;1,u8,req,a;")
text("name-of-64-bytes", "0,struct,req,;1,u8,req,|n*64|;")
text("name-of-65-bytes", "0,struct,req,;1,u8,req,|n*65|;", "refused 3 at line 2")
text("name-of-320-bytes", "0,struct,req,;1,u8,req,|n*320|;", "refused 3 at line 2")
text("name-of-64-bytes-in-32-letters", "0,struct,req,;1,u8,req,|é*32|;")
text("name-of-65-bytes-in-33-letters", "0,struct,req,;1,u8,req,n|é*32|;", "refused 3 at line 2")
text("name-of-a-field-is-empty", "0,struct,req,;1,u8,req,;", "refused 3 at line 2")
text("name-of-a-second-field-is-empty", "0,struct,req,;1,u8,req,a;1,u8,req,;", "refused 3 at line 3")
text("name-on-the-first-line", "0,bool,req,a;", "refused 3 at line 1")
text("name-on-the-first-line-of-a-struct", "0,struct,req,a;1,u8,req,a;", "refused 3 at line 1")
text("name-on-the-first-line-of-a-list", "0,list,req,a;1,u8,req,;", "refused 3 at line 1")
text("name-below-a-list", "0,list,req,;1,u8,req,a;", "refused 3 at line 2")
text("name-below-a-list-that-is-a-field", "0,struct,req,;1,list,req,a;2,u8,req,b;", "refused 3 at line 3")
text("name-that-is-not-utf-8", "0,struct,req,;1,u8,req,~?!;")
text("name-of-a-space", "0,struct,req,;1,u8,req,_;")
text("name-of-a-whole-line", "0,struct,req,;1,u8,req,1_u8_req_a;")
text("two-fields-of-one-name", "0,struct,req,;1,u8,req,a;1,bool,null,a;")

say("A list has exactly one child. It is bad itself where the next line is in form and not deeper, or where there is none.")
text("list-without-a-child", "0,list,null,;", "refused 3 at line 1")
text("list-with-a-child", "0,list,null,;1,utf8,req,;")
text("list-with-two-children", "0,list,null,;1,utf8,req,;1,utf8,req,;", "refused 3 at line 3")
text("list-with-two-children-apart", "0,list,req,;1,struct,req,;2,u8,req,a;1,u8,req,;", "refused 3 at line 4")
text("list-with-a-second-child-that-has-a-name", "0,list,null,;1,utf8,req,;1,utf8,req,a;", "refused 3 at line 3")
text("list-is-last", "0,struct,req,;1,u8,req,a;1,list,req,b;", "refused 3 at line 3")
text("list-before-a-line-as-deep", "0,struct,req,;1,list,req,a;1,u8,req,b;", "refused 3 at line 2")
text("list-before-a-line-less-deep", "0,struct,req,;1,struct,req,a;2,list,req,b;1,u8,req,c;", "refused 3 at line 3")
text("list-before-depth-0", "0,struct,req,;1,list,req,a;0,u8,req,;", "refused 3 at line 2")
text("list-before-a-line-not-in-form", "0,list,req,;x;", "refused 2 at line 2")
text("list-before-an-empty-line", "0,list,req,;;", "refused 2 at line 2")
text("list-before-a-line-without-line-end", "0,list,req,;x", "refused 2 at line 2")
text("list-before-a-line-two-deeper", "0,list,req,;2,u8,req,;", "refused 3 at line 2")
text("list-before-depth-16", "0,list,req,;16,u8,req,;", "refused 3 at line 2")
text("list-before-a-hundred-digits", "0,list,req,;|9*100|,u8,req,;", "refused 3 at line 2")
text("list-before-a-child-with-a-name", "0,list,req,;1,u8,req,a;", "refused 3 at line 2")
text("list-before-a-list-that-is-last", "0,list,req,;1,list,req,;", "refused 3 at line 2")
text("list-with-a-name-before-a-line-not-in-form", "0,list,req,a;x;", "refused 3 at line 1")
text("list-of-depth-16-before-a-hundred-digits", STRUCTS + "15,struct,req,s;16,list,req,s;|9*100|,u8,req,;",
     "refused 3 at line 17")
LISTS = "".join(f"{n},list,null,;" for n in range(15))
say("Lists below lists. One at depth 15 has no room for its child: the child's line is bad, or its own where none follows.")
text("lists-to-depth-14", LISTS + "15,i64,req,;")
text("lists-to-depth-15", LISTS + "15,list,null,;16,i64,req,;", "refused 3 at line 17")
text("lists-to-depth-15-no-child", LISTS + "15,list,null,;", "refused 3 at line 16")
text("lists-to-depth-15-before-depth-15", LISTS + "15,list,null,;15,i64,req,;", "refused 3 at line 16")
text("lists-to-depth-15-before-a-line-not-in-form", LISTS + "15,list,null,;x;", "refused 2 at line 17")

say("A struct has any number of children, and the other kinds have none.")
text("struct-without-a-child", "0,struct,null,;")
text("struct-without-a-child-below-a-list", "0,list,null,;1,struct,req,;")
text("struct-without-a-child-before-a-field", "0,struct,null,;1,struct,req,a;1,struct,null,b;")
for kind in KINDS:
    if kind not in ("struct", "list"):
        text(f"child-below-{kind}", f"0,{kind},req,;1,u8,req,;", "refused 3 at line 2")
        text(f"child-with-a-name-below-{kind}", f"0,struct,req,;1,{kind},req,a;2,u8,req,b;", "refused 3 at line 3")

say("The first bad line counts, and at one line its form before all else.")
text("shape-before-form", "0,struct,req,;1,u8,req,;x;", "refused 3 at line 2")
text("form-before-shape", "0,struct,req,;x;1,u8,req,;", "refused 2 at line 2")
text("shape-before-shape", "0,struct,req,;2,u8,req,a;1,u8,req,;", "refused 3 at line 2")
text("form-before-form", "0,struct,req,;1,u8,req,a;1,u9,req,a;1,u8;", "refused 2 at line 3")
text("shape-before-no-line-end", "0,bool,req,;0,bool,req,;0,bool,req,", "refused 3 at line 2")
text("form-and-depth-at-one-line", "0,struct,req,;5,u9,req,a;", "refused 2 at line 2")
text("form-and-name-at-one-line", "0,bool,nul,a;", "refused 2 at line 1")
text("form-and-children-at-one-line", "0,bool,req,;1,u8,req,,;", "refused 2 at line 2")
text("form-and-depth-0-at-one-line", "0,bool,req,;0,bool,req", "refused 2 at line 2")
text("child-too-many-before-form", "0,list,req,;1,u8,req,;1,u8,req,;x;", "refused 3 at line 3")
text("list-as-last-in-form-before-shape", "0,struct,req,;1,list,req,a;2,u8,req,b;x;", "refused 3 at line 3")

say("Trees: the children of each line, and the next line that is not below it.")
TREE = ("0,struct,null,;1,list,req,tags;2,list,null,;3,utf8,req,;1,struct,null,place;2,f64,req,x;2,struct,req,more;"
        "3,binary,null,blob;2,f64,null,y;1,bool,req,last;")
text("tree", TREE)
text("tree-that-goes-back-three-levels", "0,struct,req,;1,struct,req,a;2,struct,req,b;3,struct,req,c;1,u8,null,d;")
text("tree-of-a-list-of-structs", "0,list,req,;1,struct,null,;2,i8,req,a;2,list,req,b;3,struct,req,;4,f16,null,c;2,i16,req,d;")
text("tree-of-names-that-look-like-numbers", "0,struct,req,;1,struct,req,2;2,u8,req,1;1,u8,req,0;")

say("Dtypes in use: lines that are not there, and dtypes that stand in no text.")
text("lines-that-are-not-there", TREE, used=["256", "257", "65537", "4294967297", "18446744073709551615"])
text("dtypes-in-no-text", "0,struct,null,;1,u8,req,a;", used=[f"{kind},{mark}" for kind in ["bool"] + NUMBER_TYPES for mark in MARKS])

say("Words of kinds and of null marks, and numbers of number types.")
for number, kind in enumerate(NUMBER_TYPES):
    word(f"word-{kind}", kind, number)
for number, (name, written) in enumerate({
    "bool": "bool", "utf8": "utf8", "binary": "binary", "list": "list", "struct": "struct", "null": "null", "req": "req",
    "of-nothing": "*0", "with-a-capital": "Bool", "u128": "u128", "boolx": "boolx", "boo": "boo", "null-with-a-capital": "Null",
    "reqq": "reqq", "re": "re",
}.items(), 11):
    word(f"word-{name}", written, number)
word("number-256", "x", 256)
word("number-of-32-bits", "x", 4294967295)

# The equality of dtypes.

say("Equality: lines of one text, and of two. The name of the line itself does not count.")
FIELDS = "0,struct,req,;1,u8,null,a;1,u8,null,b;1,u8,req,a;1,bool,null,c;1,utf8,null,d;"
equals("a-line-and-itself", FIELDS, "2", FIELDS, "2", True)
equals("fields-of-two-names", FIELDS, "2", FIELDS, "3", True)
equals("fields-of-two-marks", FIELDS, "2", FIELDS, "4", False)
equals("fields-of-two-kinds", FIELDS, "2", FIELDS, "5", False)
equals("a-struct-and-its-field", FIELDS, "1", FIELDS, "2", False)
equals("whole-texts", TREE, "1", TREE, "1", True)
equals("a-field-and-a-whole-text", "0,struct,req,;1,list,req,a;2,i8,req,;", "2", "0,list,req,;1,i8,req,;", "1", True)
equals("a-field-at-another-depth", "0,struct,req,;1,struct,req,a;2,struct,req,b;3,u8,req,x;1,struct,req,c;2,u8,req,x;", "3",
       "0,struct,req,;1,struct,req,a;2,struct,req,b;3,u8,req,x;1,struct,req,c;2,u8,req,x;", "5", True)
equals("a-child-of-a-list-and-a-field", "0,list,req,;1,struct,null,;2,u8,req,x;", "2",
       "0,struct,req,;1,struct,null,y;2,u8,req,x;1,u8,req,z;", "2", True)
equals("other-lines-before-and-after", "0,struct,req,;1,list,req,a;2,u8,req,;1,u8,req,b;", "2",
       "0,struct,req,;1,bool,req,z;1,list,req,a;2,u8,req,;1,bool,null,y;", "3", True)
for kind, other in zip(KINDS, KINDS[1:] + KINDS[:1]):
    below, other_below = ("1,u8,req,;" if k == "list" else "" for k in (kind, other))
    equals(f"{kind}-twice", f"0,{kind},req,;{below}", "1", f"0,{kind},req,;{below}", "1", True)
    equals(f"{kind}-and-{other}", f"0,{kind},req,;{below}", "1", f"0,{other},req,;{other_below}", "1", False)
equals("marks-of-two-first-lines", "0,bool,req,;", "1", "0,bool,null,;", "1", False)

say("Equality: what is below counts, each name, kind, null mark and the order.")
DEEP = "0,struct,req,;1,list,req,a;2,struct,null,;3,list,req,b;4,u8,req,;1,bool,req,c;"
equals("deep", DEEP, "1", DEEP, "1", True)
equals("deep-name", DEEP, "1", DEEP.replace("req,b", "req,x"), "1", False)
equals("deep-name-longer", DEEP, "1", DEEP.replace("req,b", "req,bb"), "1", False)
equals("deep-mark", DEEP, "1", DEEP.replace("4,u8,req", "4,u8,null"), "1", False)
equals("deep-kind", DEEP, "1", DEEP.replace("4,u8", "4,i8"), "1", False)
equals("deep-mark-of-a-list", DEEP, "1", DEEP.replace("3,list,req", "3,list,null"), "1", False)
equals("deep-mark-of-the-first-line", DEEP, "1", DEEP.replace("0,struct,req", "0,struct,null"), "1", False)
equals("name-of-the-last-field", DEEP, "1", DEEP.replace("req,c", "req,d"), "1", False)
equals("mark-of-the-last-field", DEEP, "1", DEEP.replace("1,bool,req", "1,bool,null"), "1", False)
equals("deep-difference-outside", DEEP, "2", DEEP.replace("1,bool,req,c", "1,u8,null,d"), "2", True)
equals("names-of-two-cases", "0,struct,req,;1,u8,req,a;", "1", "0,struct,req,;1,u8,req,A;", "1", False)
equals("names-that-are-not-utf-8", "0,struct,req,;1,u8,req,~;", "1", "0,struct,req,;1,u8,req,?;", "1", False)
equals("names-equal-but-for-the-64th-byte", "0,struct,req,;1,u8,req,|n*64|;", "1", "0,struct,req,;1,u8,req,|n*63|m;", "1", False)
equals("order-of-fields", "0,struct,req,;1,u8,req,a;1,u8,req,b;", "1", "0,struct,req,;1,u8,req,b;1,u8,req,a;", "1", False)
equals("order-of-kinds", "0,struct,req,;1,u8,req,a;1,i8,req,a;", "1", "0,struct,req,;1,i8,req,a;1,u8,req,a;", "1", False)
equals("a-field-more", "0,struct,req,;1,u8,req,a;", "1", "0,struct,req,;1,u8,req,a;1,u8,req,b;", "1", False)
equals("a-field-and-none", "0,struct,req,;", "1", "0,struct,req,;1,u8,req,a;", "1", False)
equals("a-field-more-in-one-text", "0,struct,req,;1,struct,req,a;2,u8,req,x;1,struct,req,b;2,u8,req,x;2,u8,req,y;", "2",
       "0,struct,req,;1,struct,req,a;2,u8,req,x;1,struct,req,b;2,u8,req,x;2,u8,req,y;", "4", False)
say("The same kinds, null marks and names in the same order, at other depths.")
equals("depths", "0,struct,req,;1,struct,req,a;2,u8,req,b;2,u8,req,c;", "1",
       "0,struct,req,;1,struct,req,a;2,u8,req,b;1,u8,req,c;", "1", False)
equals("depths-of-empty-structs", "0,struct,req,;1,struct,req,a;2,struct,req,b;1,struct,req,c;", "1",
       "0,struct,req,;1,struct,req,a;2,struct,req,b;3,struct,req,c;", "1", False)
equals("depths-with-the-same-number-of-children", "0,struct,req,;1,struct,req,a;2,struct,req,b;3,u8,req,c;1,struct,req,d;", "1",
       "0,struct,req,;1,struct,req,a;2,struct,req,b;1,struct,req,d;2,u8,req,c;", "1", False)
equals("many-lines", "0,struct,null,;|1,u8,req,a;*255", "1", "0,struct,null,;|1,u8,req,a;*255", "1", True)
equals("many-lines-but-for-the-last", "0,struct,null,;|1,u8,req,a;*255", "1", "0,struct,null,;|1,u8,req,a;*254|1,i8,req,a;", "1",
       False)
equals("many-lines-and-one-fewer", "0,struct,null,;|1,u8,req,a;*255", "1", "0,struct,null,;|1,u8,req,a;*254", "1", False)
equals("fifteen-levels", LISTS + "15,i64,req,;", "1", LISTS + "15,i64,req,;", "1", True)
equals("fifteen-levels-but-for-the-last", LISTS + "15,i64,req,;", "1", LISTS + "15,i64,null,;", "1", False)
equals("a-list-and-the-list-below", LISTS + "15,i64,req,;", "1", LISTS + "15,i64,req,;", "2", False)

say("Equality: dtypes that stand in no text.")
equals("line-and-u8", FIELDS, "2", FIELDS, "u8,null", True)
equals("line-and-u8-of-another-mark", FIELDS, "2", FIELDS, "u8,req", False)
equals("line-and-i8", FIELDS, "2", FIELDS, "i8,null", False)
equals("line-and-bool", FIELDS, "5", FIELDS, "bool,null", True)
equals("line-and-bool-of-another-mark", FIELDS, "5", FIELDS, "bool,req", False)
equals("line-of-u8-and-bool", FIELDS, "2", FIELDS, "bool,null", False)
equals("line-of-bool-and-u8", FIELDS, "5", FIELDS, "u8,null", False)
equals("line-of-utf8-and-u8", FIELDS, "6", FIELDS, "u8,null", False)
equals("line-of-a-struct-and-u8", FIELDS, "1", FIELDS, "u8,req", False)
equals("line-of-a-list-and-u8", "0,list,req,;1,u8,req,;", "1", "0,u8,req,;", "u8,req", False)
equals("line-of-an-empty-struct-and-bool", "0,struct,req,;", "1", "0,bool,req,;", "bool,req", False)
equals("first-line-and-u8", "0,u8,req,;", "1", FIELDS, "u8,req", True)
equals("child-of-a-list-and-bool", "0,list,req,;1,bool,req,;", "2", FIELDS, "bool,req", True)
equals("u8-twice-in-no-text", FIELDS, "u8,req", TREE, "u8,req", True)
equals("u8-and-u8-in-no-text-of-another-mark", FIELDS, "u8,req", TREE, "u8,null", False)
equals("u8-and-u16-in-no-text", FIELDS, "u8,req", TREE, "u16,req", False)
equals("bool-twice-in-no-text", FIELDS, "bool,null", TREE, "bool,null", True)
equals("bool-and-bool-in-no-text-of-another-mark", FIELDS, "bool,null", TREE, "bool,req", False)
equals("bool-and-u8-in-no-text", FIELDS, "bool,req", TREE, "u8,req", False)

say("Equality: a line that is not there equals nothing.")
equals("line-0-and-itself", FIELDS, "0", FIELDS, "0", False)
equals("line-7-of-6-and-itself", FIELDS, "7", FIELDS, "7", False)
equals("lines-0-and-7-of-6", FIELDS, "0", FIELDS, "7", False)
equals("line-0-and-a-line", FIELDS, "0", FIELDS, "1", False)
equals("line-7-of-6-and-the-last", FIELDS, "7", FIELDS, "6", False)
equals("line-2-of-1-and-line-2", "0,u8,null,;", "2", FIELDS, "2", False)
equals("line-0-and-bool", FIELDS, "0", FIELDS, "bool,req", False)
equals("line-7-of-6-and-u8", FIELDS, "7", FIELDS, "u8,req", False)
equals("greatest-line-number-and-itself", FIELDS, "18446744073709551615", FIELDS, "18446744073709551615", False)

# Lists of ids.

say("An id has 1 to 64 bytes, whatever they are.")
ids("id-of-0-bytes", "*0", "add=*0")
ids("id-of-1-byte", "*0", "add=a")
ids("id-of-64-bytes", "*0", "add=i*64")
ids("id-of-65-bytes", "*0", "add=i*65")
ids("id-of-256-bytes", "*0", "add=i*256")
ids("id-of-257-bytes", "*0", "add=i*257")
ids("id-of-320-bytes", "*0", "add=i*320")
ids("id-with-line-ends-and-0-bytes", "*0", "add=;!~,", "place=;!~,", "place=;!~")
ids("ids-that-begin-alike", "*0", "add=ab", "add=a", "place=a", "place=ab", "place=abc", "place=b", "place=*0")
ids("ids-that-end-with-0-bytes", "*0", "add=a", "place=a!", "add=a!", "place=a!", "place=a")
ids("refused-ids-leave-the-list", "*0", "add=a", "add=*0", "add=i*65", "add=b", "add=*0")

say("A list has at most 64 ids.")
ids("ids-64", "a;*64", "add=b", "place=b", "add=a")
ids("ids-63-and-one", "a;*63", "add=b", "add=c", "place=b")
ids("ids-64-of-64-bytes", "i" * 64 + ";*64", "add=i*64")
ids("ids-64-and-a-bad-length", "a;*64", "add=*0", "add=i*65", "add=i*64")

say("A refused length counts before a closed list, and a closed list before a full one.")
ids("closed", "a", "close", "add=b", "place=a")
ids("closed-when-empty", "*0", "close", "add=a")
ids("closed-twice", "a", "close", "close", "add=b")
ids("closed-and-a-bad-length", "*0", "close", "add=*0", "add=i*65", "add=i*64")
ids("closed-and-full", "a;*64", "close", "add=b", "add=*0")

say("The first place of an id.")
ids("place-of-duplicates", "a;b;a;b", "place=a", "place=b")
ids("place-of-a-missing-id", "a", "place=b", "place=*0")
ids("place-in-an-empty-list", "*0", "place=a", "place=*0", "place=!")
ids("place-of-the-last-of-64", "a;*63|b", "place=b", "place=a")

say("All ids of another list, or none.")
ids("all-of-a-list", "a", "all=b;c;a", "place=a", "place=c")
ids("all-that-fit", "a;*60", "all=b;c;d;e")
ids("all-but-one-fit", "a;*60", "all=b;c;d;e;f", "place=b")
ids("all-of-64", "*0", "all=a;*64")
ids("all-of-64-to-one", "b", "all=a;*64")
ids("all-to-a-full-list", "a;*64", "all=b")
ids("all-of-an-empty-list", "a", "all=*0")
ids("all-of-an-empty-list-to-a-full-one", "a;*64", "all=*0")
ids("all-to-a-closed-list", "a", "close", "all=b;c")
ids("all-of-an-empty-list-to-a-closed-one", "a", "close", "all=*0")
ids("all-to-a-closed-and-full-list", "a;*64", "close", "all=b")
ids("all-and-then-one", "a;*60", "all=b;c;d;e;f", "add=g", "all=b;c;d", "add=h")

say("Ids that are added under a guard go again, unless it is confirmed.")
ids("trial", "a", "trial=b;c;a", "place=b")
ids("trial-kept", "a", "keep=b;c;a", "place=b")
ids("trial-of-no-id", "a", "trial=*0", "keep=*0")
ids("trial-of-too-many", "a;*62", "trial=b;c;d;e", "place=b")
ids("trial-of-too-many-kept", "a;*62", "keep=b;c;d;e", "place=c", "place=d")
ids("trial-in-a-closed-list", "a", "close", "trial=b;a")
ids("trial-in-a-closed-list-kept", "a", "close", "keep=a;b")
ids("trial-of-64", "*0", "trial=a;*64", "add=b")
ids("trial-then-kept-then-trial", "*0", "trial=a", "keep=b;c", "trial=d", "add=e")

say("Files of ids: one a line, where the last line end may be missing.")
ids("file-empty", "*0")
ids("file-with-a-line-end", "a;b;")
ids("file-without-a-last-line-end", "a;b")
ids("file-of-one-line-end", ";", refused=(4, 1))
ids("file-with-an-empty-line", "a;;b", refused=(4, 2))
ids("file-with-an-empty-first-line", ";a", refused=(4, 1))
ids("file-with-an-empty-last-line", "a;b;;", refused=(4, 3))
ids("file-with-0d", "a^;b^;")
ids("file-of-0d-alone", "^;")
ids("file-with-tabs-and-spaces", "a,b;_c;")
ids("file-with-0-bytes", "!;!!")
ids("file-that-is-not-utf-8", "~;?")
ids("file-with-one-id-twice", "a;a;", "place=a")
ids("file-of-64-lines", "a;*64")
ids("file-of-64-lines-without-a-last-line-end", "a;*63|b")
ids("file-of-65-lines", "a;*65", refused=(5, 65))
ids("file-of-65-lines-without-a-last-line-end", "a;*64|b", refused=(5, 65))
ids("file-of-66-lines", "a;*66", refused=(5, 65))
ids("file-of-64-lines-and-an-empty-one", "a;*64|;", refused=(4, 65))
ids("file-of-64-lines-and-a-65-byte-line", "a;*64|i*65|;", refused=(4, 65))
ids("file-of-65-lines-and-an-empty-one", "a;*65|;", refused=(5, 65))
ids("file-with-a-64-byte-line", "a;|i*64|;b")
ids("file-with-a-65-byte-line", "a;|i*65|;b", refused=(4, 2))
ids("file-with-a-65-byte-last-line", "a;b;|i*65", refused=(4, 3))
ids("file-with-two-bad-lines", "a;|i*65|;;b", refused=(4, 2))
ids("file-with-an-empty-line-before-65", "a;*63|;|a;*3", refused=(4, 64))
ids("file-with-300-lines", "a;*300", refused=(5, 65))
ids("file-with-70000-empty-lines", ";*70000", refused=(4, 1))

(HERE / "stdin").write_text("".join(line + "\n" for line in CASES))
(HERE / "stdout").write_text("".join(answer + "\n" for answer in ANSWERS) + f"{len(ANSWERS)} cases\n")
