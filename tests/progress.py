#!/usr/bin/env python3
"""What rt ci says, made short as it goes: each crate as it is proved, how many edits are refused. All else that it says of itself is shown, and
what the prover says of a crate only where the crate is not proved."""
import pathlib
import re

ROOT = pathlib.Path(__file__).resolve().parent.parent
PROVED = re.compile(r"rt: (\w+) (?:proved|is kept: .*)$")
REFUSED = re.compile(r"rt: must-fail (\w+)/(\S+?): refused, ")
BAD = re.compile(r"rt: ok\b.*, [1-9]\d* bad\b")


def crates():
    """The crates of crates.txt, each with those that it names."""
    below = {}
    for line in (ROOT / "crates.txt").read_text().splitlines():
        name, colon, named = line.partition("#")[0].partition(":")
        if colon:
            below[name.split()[0]] = named.split()
    return below


class Progress:
    """Takes rt's lines one by one."""

    def __init__(self, crate_count, edit_count, say):
        self.crate_count, self.edit_count, self.say = crate_count, edit_count, say
        self.proved, self.refused, self.failed, self.bad = 0, 0, 0, 0
        self.held = []

    def take(self, line):
        if PROVED.match(line):
            self.held = []  # what the prover said of a crate that it proved
            self.proved += 1
            self.say(f"{line[4:].partition(':')[0]}: {self.proved} of {self.crate_count} crates")
        elif REFUSED.match(line):
            self.refused += 1
            if self.refused % 20 == 0:
                self.say(f"{self.refused} of {self.edit_count} edits refused")
        elif line.startswith("rt: "):
            self.show_held()
            self.failed += " NOT PROVED" in line
            self.bad += BAD.match(line) is not None
            self.say(line)
        else:
            self.held.append(line)

    def show_held(self):
        for line in self.held:
            self.say(line)
        self.held = []

    def end(self):
        self.show_held()
        self.say(f"{self.proved} of {self.crate_count} crates proved, {self.refused} of {self.edit_count} edits refused")
