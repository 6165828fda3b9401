"""The examples of the definitions, read out of their tables, so that no answer is stated twice."""

import re
import struct

import model

FILES = tuple(f"crates/definitions/specs/{table}.antt" for table in ("Examples", "RuleExamples", "TallyExamples"))
TRACES = "crates/definitions/specs/PressExamples.antt"
TOKEN = re.compile(r'--.*|"[^"]*"|\d+|[A-Za-z_][\w-]*|∷|\+\+|\[\]|[()]|\S')


class Example:
    """A text at a lane number, and what is said of it: figures with their arguments, and their values."""

    def __init__(self, name, lanes, text, says):
        self.name, self.lanes, self.text, self.says = name, lanes, text, says

    def holds(self, of):
        """Whether this model gives what the example says."""
        return all(of.figure(name, arguments, self.lanes, self.text) == value for name, arguments, value in self.says)


class TraceExample:
    """Note records and a trace, and what is answered to them."""

    def __init__(self, name, records, trace, answer):
        self.name, self.records, self.trace, self.answer = name, records, trace, answer

    def holds(self, of):
        """Whether this model answers so."""
        return of.press_trace(self.records, self.trace) == self.answer


def read():
    """The examples of all tables."""
    found = []
    for file in FILES:
        found += table(rows_of(file))
    return found + traces(rows_of(TRACES))


def rows_of(file):
    """What stands between `table =` and the claim."""
    with open(file, encoding="utf-8") as lines:
        source = lines.read()
    rows = source[source.index("\ntable =\n") + 9 :]
    return rows[: rows.index("\n\n")]


def table(rows):
    """The rows, each under a comment that begins with its name."""
    found = []
    for part in re.split(r"^ *-- (?=[PRKSF]\d+\b)", rows, flags=re.M)[1:]:
        name = re.match(r"[PRKSF]\d+", part).group()
        found.append(example(name, "-- " + part))
    return found


def example(name, source):
    """One row: `at4 STRING SAYS` or `at LANES GIVEN SAYS`."""
    word, *rest = [token for token in tree_of(source) if token not in ("∷", "[]")]
    lanes, given, says = [4, *rest] if word == "at4" else [int(rest[0]), *rest[1:]]
    if word not in ("at4", "at") or len(rest) != (2 if word == "at4" else 3):
        raise ValueError(f"{name} is no row of the table")
    return Example(name, lanes, bytes(numbers(given)), [said(part) for part in says if isinstance(part, list)])


def traces(rows):
    """The rows T1 on: `counted NOTES PRESSES HITS STRAYS MISSES HITS MISSES`, these of the first columns, or `refused NOTES PRESSES NUMBER`."""
    words = [token for token in tree_of(rows) if token != "∷"]
    starts = [i for i, word in enumerate(words) if word in ("counted", "refused")]
    found = []
    # The table's end is no word of its last row.
    for number, (start, end) in enumerate(zip(starts, [*starts[1:], -1]), 1):
        word, records, trace, *says = words[start:end]
        counts = [list(listed(part)) for part in says]
        if len(counts) != (5 if word == "counted" else 1):
            raise ValueError(f"T{number} is no row of the table")
        answer = counts[0] if word == "refused" else [0] + counts[0] + counts[1] + counts[2] + ten(counts[3]) + ten(counts[4])
        found.append(TraceExample(f"T{number}", bytes(listed(records)), bytes(listed(trace)), answer))
    return found


def ten(counts):
    """The counts of ten columns, by those of the first."""
    return counts + [0] * (10 - len(counts))


def listed(part):
    """The numbers of a list, notes and presses as the bytes of their records, and lists in it one after the other."""
    words = iter([part] if isinstance(part, str) else part)
    for word in words:
        if isinstance(word, list):
            yield from listed(word)
        elif word == "note":
            yield from model.record([int(next(words)) for _ in range(4)])
        elif word == "plain":
            row, column, kind = [int(next(words)) for _ in range(3)]
            yield from model.record((row, model.NO_TAIL, column, kind))
        elif word == "press":
            yield from struct.pack("<IB", int(next(words)), int(next(words)))
        elif word.isdigit():
            yield int(word)
        elif word not in ("[]", "∷", "++"):
            raise ValueError(f"{word} is no word of a list")


def said(part):
    """`FIGURE is VALUE` as the figure's name, its arguments and its value."""
    at = part.index("is")
    name, *arguments = part[:at]
    return name, [argument(x) for x in arguments], numbers(part[at + 1 :])


def argument(x):
    """An argument of a figure: a list, a number or a field's name."""
    if isinstance(x, list) or x == "[]":
        return numbers(x)
    return int(x) if x.isdigit() else x


def numbers(x):
    """A list of numbers: digits, strings (`|` is byte 10 and `^` byte 13), and the tables' words for whole beats, no tail,
    repeats, and the counts of a tally without an arrow up-left or up-right."""
    if isinstance(x, str):
        if x.startswith('"'):
            return [{124: 10, 94: 13}.get(byte, byte) for byte in x[1:-1].encode("ascii")]
        return [int(x)] if x.isdigit() else [model.NO_TAIL] if x == "none" else []
    inside = [number for part in x for number in numbers(part)]
    if "whole_beats" in x:
        return [model.bits32(number) for number in inside]
    if "whole_beat" in x:
        return [model.bits64(number) for number in inside]
    if "counts" in x:
        return inside + [0, 0]
    if "replicate" in x:
        return inside[0] * inside[1:]
    if "zero_rows" in x:
        return inside[:-1] + list(b"0000\n" * inside[-1])
    return inside


def tree_of(source):
    """Its words without comments, those in a pair of brackets as a list."""
    return groups([token for token in TOKEN.findall(source) if not token.startswith("--")])


def groups(tokens):
    """Tokens with each pair of brackets as a list of its own."""
    stack = [[]]
    for token in tokens:
        if token == "(":
            stack.append([])
        elif token == ")":
            group = stack.pop()
            stack[-1].append(group)
        else:
            stack[-1].append(token)
    if len(stack) != 1:
        raise ValueError("brackets do not match")
    return stack[0]
