"""A plain model of the figures, written from the specification and not from the definitions or the code, a rule a line where that
can be. `run.py` changes one line of it at a time and asks which example notices."""

import struct
from collections import defaultdict
from fractions import Fraction

NO_TAIL = 4294967295
FIELDS = (
    *("arrows", "left", "down", "up", "right", "steps", "jumps", "hands", "mines", "holds", "rolls", "lifts", "fakes", "holding"),
    *("keys", "up_left", "up_right"),
)


def is_lane_count(number):
    """Whether a lane number is a lane count."""
    return number in (4, 5, 6, 8, 10)


# Refusals, Slices


def told_length(L, length):
    """The number that is answered to a text of this length where no slice is lent."""
    if not is_lane_count(L):
        return 12
    return 1 if length > 16777215 else 0


def told(L, length, slices):
    """The number that the main call answers, lent slices of these lengths: text, measures, beats, work, notes."""
    if told_length(L, length) != 0:
        return told_length(L, length)
    rows = (length + 1) // (L + 1)
    least = [length + 1, (length + 1) // 2 + 1, rows, rows, 10 * L * rows]
    for number in (2, 3, 4, 5, 6):
        if slices[number - 2] < least[number - 2]:
            return number
    return 0


def left(number, answer, room):
    """What a call that answers this number leaves in a slice of so many bytes 7."""
    if number != 0:
        return [7] * room
    return answer + [0] * (room - len(answer))


# Lines and measures


def measures(L, text):
    """The rows of each measure of a text, before minimising."""
    found = [[]]
    for line in text.split(b"\n"):
        line = line.lstrip(bytes((9, 10, 12, 13, 32)))
        mark = line[:1]
        if mark == b",":
            found.append([])
        elif mark == b";":
            break
        elif mark != b"/" and len(line) >= L and 13 not in line[:L]:
            found[-1].append(line[:L])
    return found


# Minimising


def is_zero(row):
    """The all-zero test."""
    return all(byte == 48 for byte in row)


def stride(rows):
    """The largest power of two that divides the row count and has every row off its multiples all zero."""
    largest = 1
    for exponent in range(len(rows) + 1):
        power = 2**exponent
        divides = len(rows) % power == 0
        off_multiples = [row for i, row in enumerate(rows) if i % power != 0]
        if divides and all(is_zero(row) for row in off_multiples):
            largest = max(largest, power)
    return largest


def minimised(L, text):
    """The minimised rows of each measure."""
    found = []
    for rows in measures(L, text):
        step = stride(rows)
        found.append([row for i, row in enumerate(rows) if i % step == 0])
    return found


def rows_of(L, text):
    """All minimised rows of a text."""
    return [row for rows in minimised(L, text) for row in rows]


def minimised_text(L, text):
    """The minimised text."""
    parts = [b"".join(row + b"\n" for row in rows) for rows in minimised(L, text)]
    return b",\n".join(parts)


# Density and spacing


def is_step(row):
    """A row with a 1, 2 or 4."""
    return any(byte in b"124" for byte in row)


def densities(L, text):
    """Minimised rows with a 1, 2 or 4."""
    return [sum(is_step(row) for row in rows) for rows in minimised(L, text)]


def spacings(L, text):
    """Whether each minimised row has a 1, 2 or 4."""
    return [int(all(is_step(row) for row in rows)) for rows in minimised(L, text)]


# Beats


def rounded(x, bits):
    """A fraction rounded to so many significant bits, ties to even."""
    if x == 0:
        return x
    unit = Fraction(1, 2 ** (2 * bits))
    while x / unit >= 2**bits:
        unit *= 2
    return round(x / unit) * unit


def row_beat(m, r, n):
    """The beat of row r of n rows in measure m."""
    step = rounded(Fraction(4, n), 24)
    product = r * step
    return rounded(product + 4 * m, 24)


def beats(L, text):
    """The beats of all minimised rows."""
    return [row_beat(m, r, len(rows)) for m, rows in enumerate(minimised(L, text)) for r in range(len(rows))]


def last_row(m, r, n):
    """The beat of an object row in whole 48ths, in 64-bit floats."""
    beat = 4.0 * m + 4.0 * r / n
    return round(beat * 48.0)


def is_object_row(row, depths):
    """Whether a row is an object row, where the depths of the columns before it are these."""
    return any(byte in b"1MLFK" or byte in b"3" and depths[c] > 0 for c, byte in enumerate(row))


def last48(L, text):
    """The last beat in 48ths."""
    last = 0
    depths = defaultdict(int)
    for m, rows in enumerate(minimised(L, text)):
        for r, row in enumerate(rows):
            if is_object_row(row, depths):
                last = last_row(m, r, len(rows))
            for c, byte in enumerate(row):
                if byte in b"24":
                    depths[c] += 1
                elif byte in b"3":
                    depths[c] = max(0, depths[c] - 1)
                elif byte in b"1MLFK":
                    depths[c] = 0
    return last


def last_beat(L, text):
    """The last beat."""
    return last48(L, text) / 48.0


# Hold tracker


def pairs(rows):
    """The column, head row and tail row of each pair."""
    found = []
    stacks = defaultdict(list)
    for i, row in enumerate(rows):
        for c, byte in enumerate(row):
            if byte in b"24" and len(stacks[c]) < 8:
                stacks[c].append(i)
            elif byte in b"1MLF":
                stacks[c].clear()
            elif byte in b"3" and stacks[c]:
                found.append((c, stacks[c].pop(), i))
    return found


def paired_only(rows):
    """The rows with only tracker-paired heads; another head is an empty cell."""
    heads = {(c, head) for c, head, _ in pairs(rows)}
    return [bytes(48 if byte in b"24" and (c, i) not in heads else byte for c, byte in enumerate(row)) for i, row in enumerate(rows)]


# Typed notes and their records


def kind_of(byte):
    """A note's kind: 0 tap, 1 hold, 2 roll, 3 mine, 4 lift, 5 fake."""
    return {"1": 0, "2": 1, "4": 2, "M": 3, "m": 3, "L": 4, "l": 4, "F": 5, "f": 5}[chr(byte)]


def notes(L, text):
    """The notes of a text: row, tail row, column and kind of each."""
    found = []
    heads = defaultdict(list)
    for i, row in enumerate(rows_of(L, text)):
        for c, byte in enumerate(row):
            if byte in b"3" and heads[c]:
                head, kind = heads[c].pop()
                found.append((head, i, c, kind))
            if byte in b"124MLFmlf":
                heads[c].clear()
            if byte in b"24":
                heads[c].append((i, kind_of(byte)))
            elif byte in b"1MLFmlf":
                found.append((i, NO_TAIL, c, kind_of(byte)))
    return sorted(found, key=lambda note: (note[0], note[2]))


def record(note):
    """A note's ten bytes: row u32, tail u32, column u8, kind u8, low byte first."""
    return struct.pack("<IIBB", *note)


def read_note(records, k):
    """Record k of some bytes: 0 and the note, or the refusal's number."""
    if len(records) % 10 != 0:
        return [7]
    if k >= len(records) // 10:
        return [7]
    row, tail, column, kind = struct.unpack("<IIBB", records[10 * k : 10 * k + 10])
    has_tail = kind in (1, 2)
    limits = [
        column < 10,
        kind < 6,
        row < 16777216,
        tail < 16777216 or not has_tail,
        tail > row or not has_tail,
        tail == NO_TAIL or has_tail,
    ]
    return [0, row, tail, column, kind] if all(limits) else [8]


# Pad traces


def is_played(note):
    """A tap, a hold or a roll."""
    return note[3] in (0, 1, 2)


def stands(note):
    """Where a note stands, its row and column alone."""
    row, tail, column, kind = note
    return [(row, column)]


def hits(notes, presses):
    """The presses on a played note with no press before them there."""
    places = [place for note in notes if is_played(note) for place in stands(note)]
    return [press for i, press in enumerate(presses) if press in places and press not in presses[:i]]


def misses(notes, presses):
    """Where the played notes stand that have no press."""
    return [place for note in notes if is_played(note) for place in stands(note) if place not in presses]


def places(notes, presses):
    """Hits, strays, misses, the hits of each column and the misses of each."""
    hit, missed = hits(notes, presses), misses(notes, presses)
    counts = [len(hit), len(presses) - len(hit), len(missed)]
    of_column = lambda c, found: sum(column == c for _, column in found)
    return counts + [of_column(c, hit) for c in range(10)] + [of_column(c, missed) for c in range(10)]


def read_press(trace, k):
    """Row and column of press k."""
    return struct.unpack("<IB", trace[5 * k : 5 * k + 5])


def is_bad_trace(trace):
    """Whether a trace has part of a press, a column over 9, or a press that falls."""
    presses = [read_press(trace, k) for k in range(len(trace) // 5)]
    wide = any(column > 9 for _, column in presses)
    falls = any(later < press for press, later in zip(presses, presses[1:]))
    return len(trace) % 5 != 0 or wide or falls


def press_trace(records, trace):
    """What is answered to note records and a trace: 0 and the 23 places, or the refusal's number."""
    read = [read_note(records, k) for k in range(len(records) // 10)]
    uneven = len(records) % 10 != 0
    broken = [8] in read
    notes = [tuple(note[1:]) for note in read]
    stand = [(note[0], note[2]) for note in notes if note]
    equal_or_falls = any(later <= place for place, later in zip(stand, stand[1:]))
    checks = [(7, uneven), (8, broken), (13, equal_or_falls), (16, is_bad_trace(trace))]
    told = [number for number, is_refused in checks if is_refused]
    return told[:1] or [0] + places(notes, [read_press(trace, k) for k in range(len(trace) // 5)])


# Tally


def count(row, cells):
    """How many cells of a row are among these."""
    return sum(byte in cells for byte in row)


def direction(L, c):
    """The direction of an arrow in column c."""
    six = ("left", "up_left", "down", "up", "up_right", "right")
    return six[c] if L == 6 else ("left", "down", "up", "right")[c % 4]


def add_cells(t, row, arrow_cells):
    """Adds a row's cells to a tally, and answers its arrows."""
    columns = [c for c, byte in enumerate(row) if byte in arrow_cells]
    t["arrows"] += len(columns)
    for c in columns:
        t[direction(len(row), c)] += 1
    t["holds"] += count(row, b"2")
    t["rolls"] += count(row, b"4")
    t["mines"] += count(row, b"Mm")
    t["lifts"] += count(row, b"Ll")
    t["fakes"] += count(row, b"Ff")
    t["keys"] += count(row, b"K")
    return len(columns)


def tally(rows):
    """The plain tally."""
    t = dict.fromkeys(FIELDS, 0)
    for row in rows:
        arrows = add_cells(t, row, b"124")
        t["steps"] += arrows >= 1
        t["jumps"] += arrows >= 2
        t["hands"] += arrows >= 1 and arrows + t["holding"] >= 3
        t["holding"] = max(0, t["holding"] + count(row, b"24") - count(row, b"3"))
    return t


# Correction


def is_corrected(rows):
    """Whether the tally of these rows is counted anew."""
    heads = sum(count(row, b"24") for row in rows)
    tails = sum(count(row, b"3") for row in rows)
    met = False
    depths = defaultdict(int)
    for row in rows:
        for c, byte in enumerate(row):
            if byte in b"1MLF" and depths[c] != 0:
                met = True
            if byte in b"24":
                depths[c] += 1
            elif byte in b"3":
                depths[c] = max(0, depths[c] - 1)
    left_over = any(depth != 0 for depth in depths.values())
    return heads > 0 and (heads != tails or met or left_over)


def corrected(rows, back):
    """The tally of rows, corrected over `back`, the rows as that pass reads them again."""
    plain = tally(rows)
    if not is_corrected(rows):
        return plain
    anew = tally(paired_only(back))
    anew["steps"] = plain["steps"]
    return anew


def rows_read_back(L, text):
    """The rows that `parse_minimized_rows` reads."""
    found = []
    for line in text.split(b"\n"):
        line = line[:-1] if line.endswith(b"\r") else line
        if len(line) >= L and 13 not in line[:L] and line[:1] not in (b",", b";"):
            found.append(line[:L])
    return found


def main_tally(L, text):
    """The tally of the main pass."""
    return corrected(rows_of(L, text), rows_read_back(L, minimised_text(L, text)))


def kept_tally(L, text):
    """The tally of the kept-row pass."""
    return corrected(rows_of(L, text), rows_of(L, text))


# Judged tally


def is_judged(flags, i):
    """Whether row i is judged, with one flag byte a row."""
    return i < len(flags) and flags[i] != 0


def judged_tally(L, text, flags):
    """The tally of the rows read back, judged by flags."""
    rows = rows_read_back(L, text)
    t = dict.fromkeys(FIELDS, 0)
    holds = [(head, tail) for _, head, tail in pairs(rows) if is_judged(flags, head)]
    for i, row in enumerate(paired_only(rows)):
        if is_judged(flags, i):
            arrows = add_cells(t, row, b"1Ll24")
            held = sum(head < i <= tail for head, tail in holds)
            t["steps"] += arrows >= 1
            t["jumps"] += arrows >= 2
            t["hands"] += arrows + count(row, b"MmFf") >= 1 and arrows + held >= 3
        else:
            t["fakes"] += count(row, b"1LlMmFf24")
    return t


# Timing rows


def timing_rows(L, text):
    """The minimised rows back to back."""
    return b"".join(rows_of(L, text))


def timing_heads(L, text):
    """Whether any of them has a 2 or 4."""
    return int(any(byte in b"24" for byte in timing_rows(L, text)))


# The figures that the examples name (`crates/definitions/specs/Examples.antt`)


def bits32(x):
    """The bits of a number as a 32-bit float."""
    return struct.unpack("<I", struct.pack("<f", x))[0]


def bits64(x):
    """The bits of a number as a 64-bit float."""
    return struct.unpack("<Q", struct.pack("<d", x))[0]


def field_of(t, name):
    """A field of a tally, or all of them."""
    return [t[field] for field in FIELDS] if name == "every" else [t[name]]


def figure(name, arguments, L, text):
    """A figure of a text, in numbers, at a lane number."""
    if name == "text":
        return list(minimised_text(L, text))
    if name == "density":
        return densities(L, text)
    if name == "spacing":
        return spacings(L, text)
    if name == "row_counts":
        return [len(rows) for rows in minimised(L, text)]
    if name == "beat_list":
        return [bits32(beat) for beat in beats(L, text)]
    if name == "last":
        return [bits64(last_beat(L, text))]
    if name == "last_48ths":
        return [last48(L, text)]
    if name == "note_list":
        return [number for note in notes(L, text) for number in note]
    if name == "note_bytes":
        return list(b"".join(record(note) for note in notes(L, text)))
    if name == "record_read":
        return read_note(text, *arguments)
    if name == "told_length":
        return [told_length(L, *arguments)]
    if name == "told":
        return [told(L, len(text), arguments)]
    if name == "left_text":
        return left(told(L, len(text), arguments), list(minimised_text(L, text)), arguments[0])
    if name == "left_work":
        return left(told(L, len(text), arguments), [], arguments[3])
    if name == "main":
        return field_of(main_tally(L, text), *arguments)
    if name == "kept":
        return field_of(kept_tally(L, text), *arguments)
    if name == "judged":
        return field_of(judged_tally(L, text, [1] * len(text)), *arguments)
    if name == "flagged":
        return field_of(judged_tally(L, text, arguments[0]), arguments[1])
    if name == "timing":
        return list(timing_rows(L, text))
    if name == "timing_head":
        return [timing_heads(L, text)]
    raise ValueError(f"no figure {name}")
