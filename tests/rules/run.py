"""Shows that the examples tell every wrong rule of `wrong-rules.txt`: see `run.sh`."""

import random
import re
import sys
import types
from concurrent.futures import ThreadPoolExecutor

import examples
import model
import oracle

TEXTS = 2000
FOLDER = "tests/rules/"


class Run:
    """What passed and what failed."""

    def __init__(self):
        self.passed = self.failed = 0

    def count(self, good, said):
        """Counts a check, and says what failed."""
        self.passed += good
        self.failed += not good
        if not good:
            print(f"failed: {said}")


def wrong_rules(source):
    """The wrong rules: what is wrong, and the model's source with it."""
    with open(FOLDER + "wrong-rules.txt", encoding="utf-8") as lines:
        for line in lines:
            line = line.rstrip("\n")
            if line.startswith("["):
                begin = source.index(f"\ndef {line[1:-1]}(")
                end = source.index("\n\n\n", begin)
            elif line and not line.startswith("#"):
                what, change = line.split(" :: ")
                old, new = change.split(" => ")
                if source.count(old, begin, end) != 1:
                    raise ValueError(f"{what}: `{old}` does not stand once in its function")
                at = source.index(old, begin)
                indent = re.match(" *", source[source.rindex("\n", 0, at) + 1 :]).group()
                yield what, source[:at] + new.replace("¶", "\n" + indent) + source[at + len(old) :]


def changed(source):
    """A model of this source."""
    module = types.ModuleType("changed")
    exec(compile(source, "changed", "exec"), module.__dict__)
    return module


def arguments_of(name, flags):
    """The arguments with which a figure of the model is what the oracle answers."""
    return {"main": ["every"], "kept": ["every"], "judged": ["every"], "flagged": [flags, "every"]}.get(name, [])


def same_as_oracle(seed):
    """A random text, and its figures that the model gives otherwise than the oracle, a trace of presses on its notes among them."""
    draw = random.Random(seed)
    lanes, flags, text = oracle.random_text(draw)
    given = oracle.answers(lanes, flags, text)
    names = [name for name, value in given if model.figure(name, arguments_of(name, flags), lanes, text) != value]
    records, trace = oracle.random_trace(draw, model.notes(lanes, text))
    if model.press_trace(records, trace) != oracle.press_trace(records, trace):
        names.append(f"press_trace of {trace!r}")
    return lanes, flags, text, names


def said_by_oracle(example):
    """For each figure of an example that the oracle has, or for what is answered to a trace, whether it answers what the example says."""
    if isinstance(example, examples.TraceExample):
        return [oracle.press_trace(example.records, example.trace) == example.answer]
    if not model.is_lane_count(example.lanes):
        return []
    same = []
    for name, arguments, value in example.says:
        flags = arguments[0] if name == "flagged" else []
        for other, answer in oracle.answers(example.lanes, flags, example.text):
            if other == name:
                one_field = arguments and arguments[-1] != "every"
                same.append(value == ([answer[model.FIELDS.index(arguments[-1])]] if one_field else answer))
    return same


def main():
    run = Run()
    table = examples.read()
    for example in table:
        run.count(example.holds(model), f"the model does not give {example.name}")
        same = said_by_oracle(example)
        if same:
            run.count(all(same), f"the oracle answers otherwise than {example.name} says")
    right = [example for example in table if example.holds(model)]
    with ThreadPoolExecutor(4) as pool:
        for lanes, flags, text, names in pool.map(same_as_oracle, range(TEXTS)):
            run.count(not names, f"the model and the oracle differ at {lanes} lanes, flags {flags}, {text!r}: {names}")
    with open(FOLDER + "model.py", encoding="utf-8") as file:
        source = file.read()
    for what, wrong in wrong_rules(source):
        of = changed(wrong)
        tell = [example.name for example in right if not example.holds(of)]
        run.count(bool(tell), f"no example tells: {what}")
        print(f"{what}: {' '.join(tell)}")
    print(f"{run.passed} passed, {run.failed} failed")
    return run.failed > 0


sys.exit(main())
