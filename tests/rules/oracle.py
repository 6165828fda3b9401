"""The oracle's answers (`tests/oracle`), and random short texts and pad traces to ask it about."""

import codecs
import struct
import subprocess
import tempfile

ORACLE = "target/oracle/oracle"


def answers(lanes, flags, text):
    """The figures of a text that the oracle has, under the names of the examples; a tally is all its fields, and some figures have several calls."""
    calls = {}
    for line in said(["figures", str(lanes)], bytes(flags), text):
        if line.startswith("  "):
            call.append(line[2:])
        else:
            call = calls.setdefault(line, [])
    main = calls["minimize_chart_count_rows_notes"]
    kept = calls["process_chart_kept"]
    timing = calls["minimize_timing_rows"]
    last = calls["chart_last_beat"]
    return [
        ("text", quoted(main)),
        ("text", quoted(kept)),
        ("density", listed(main, "densities")),
        ("density", listed(kept, "densities")),
        ("density", listed(calls["measure_densities"], "densities")),
        ("spacing", listed(calls["equally_spaced"], "spacing")),
        ("beat_list", beats(main)),
        ("beat_list", beats(timing)),
        ("last", [int(word(main, "last_beat")[2])]),
        ("last", [int(word(last, "last_beat")[2])]),
        ("last_48ths", listed(main, "last_beat_48ths")),
        ("last_48ths", listed(last, "last_beat_48ths")),
        ("note_list", notes(main)),
        ("main", tally(main)),
        ("kept", tally(kept)),
        ("judged", tally(calls["process_rows_judgable"])),
        ("flagged", tally(calls["process_timing_rows"])),
        ("timing", quoted(timing)),
        ("timing_head", listed(timing, "has_heads")),
    ]


def said(words, file, given):
    """The lines that the oracle prints at these words and a file's name."""
    with tempfile.NamedTemporaryFile() as named:
        named.write(file)
        named.flush()
        run = subprocess.run([ORACLE, *words, named.name], input=given, capture_output=True, check=True)
    return run.stdout.decode().splitlines()


def press_trace(records, trace):
    """What is answered to note records and a trace: 0 and the 23 places, or the refusal's number."""
    name, *counts = said(["press"], trace, records)[0].split(" ")
    return ([0] if name == "presses" else []) + [int(count) for count in counts]


def word(lines, name):
    """The words after a name."""
    return next(line for line in lines if line.split(" ")[0] == name).split(" ")[1:]


def listed(lines, name):
    """The numbers after a name."""
    return [int(number) for number in word(lines, name)]


def quoted(lines):
    """The bytes of the text."""
    line = next(line for line in lines if line.startswith('text "'))
    return list(codecs.escape_decode(line[6:-1].encode("ascii"))[0])


def beats(lines):
    """The bits of the beats."""
    return [struct.unpack("<I", struct.pack("<f", float(beat)))[0] for beat in word(lines, "beats")]


def notes(lines):
    """Row, tail row, column and kind of each note."""
    found = []
    for line in lines:
        if line.startswith("note "):
            row, column, kind, tail = line.split(" ")[1:]
            found += [int(row), 4294967295 if tail == "-" else int(tail), int(column), int(kind)]
    return found


def tally(lines):
    """The tally's fields in their order."""
    at = next(i for i, line in enumerate(lines) if line.startswith("total_arrows "))
    return [int(line.split(" ")[1]) for line in lines[at : at + 17]]


def random_text(draw):
    """A lane count, flags and a text of a few lines, most of them rows."""
    lanes = draw.choice((4, 4, 5, 6, 6, 8, 10, 10))
    cells = draw.choice(("01", "0001234", "0012344MLFKmlf", "002233", "0000MLFKmlf123", "0001234\r", "0123456789MLFKmlfxX \r"))
    marks = draw.choice((0.0, 0.1, 0.4))
    zeros = draw.choice((0.0, 0.3, 0.8))
    column = draw.random() < 0.15
    lines = []
    for _ in range(draw.choice((1, 3, 6, 8, 12, 20, 24))):
        if draw.random() < marks:
            line = draw.choice((",", ",", ", 1111", ";", "", "/", "//100", "/000", " ", "1", "123", "\t,", " ;", "\r", "," * 5, "0" * (lanes - 1)))
        elif draw.random() < zeros:
            line = "0" * lanes
        elif column:
            line = draw.choice("222333144L") + "0" * (lanes - 1)
        else:
            line = "".join(draw.choice(cells) for _ in range(lanes))
        if draw.random() < marks / 2:
            line = draw.choice(" \t\r\x0b\x0c") + line
        if draw.random() < marks / 2:
            line += draw.choice(("\r", "\r\r", "0", " x"))
        lines.append(line)
    flags = [draw.choice((0, 0, 1, 1, 2)) for _ in range(draw.choice((0, 1, 4, 12)))]
    return lanes, flags, "\n".join(lines).encode("latin-1")


def random_trace(draw, notes):
    """Note records and a trace: presses on some of the notes and beside them, most of them in order."""
    presses = []
    for row, tail, column, _ in notes:
        places = [(row, column), (row, column), (tail, column), (row + 1, column), (row, draw.randrange(11))]
        presses += draw.choices(places, (8, 8, 1, 1, 1), k=draw.choice((0, 1, 1, 1, 1, 2)))
    if draw.random() < 0.9:
        presses.sort()
    trace = b"".join(struct.pack("<IB", *press) for press in presses)
    records = [struct.pack("<IIBB", *note) for note in notes]
    if draw.random() < 0.1:
        draw.shuffle(records)
    cut = draw.choice((0,) * 12 + (1, 3))
    return b"".join(records), trace[cut:]
