"""Reads a report of dshark strictly: each line by its exact form, G lines before P lines before C lines before one E
line, whose numbers are those of the lines above. What is no report is refused with the number of the line and what is
wrong there.

The programs beside this module share it. `run` ends a program as they all do.
"""

import os
import re
import sys
from collections import Counter, defaultdict, namedtuple
from datetime import datetime, timezone

NAME = "([A-Za-z_][A-Za-z0-9_]{0,31})"
DIGITS = "(?:0|[1-9][0-9]{0,38})"
NUMBER = f"({DIGITS})"
KEY = f"({DIGITS}(?:,{DIGITS}){{0,15}})"
CLASSES = f"({DIGITS}:{DIGITS}(?:,{DIGITS}:{DIGITS})*)"
FORMS = {
    "G": ("G <time> <capture> <record> key=<k,k,..> n=<members> <verdict>",
          f"G {NUMBER} {NAME} {NUMBER} key={KEY} n={NUMBER} (.*)"),
    "P": ("P <from> <to> count=<n> sum=<n> least=<n> greatest=<n> classes=<class:n,..>",
          f"P {NAME} {NAME} count={NUMBER} sum={NUMBER} least={NUMBER} greatest={NUMBER} classes={CLASSES}"),
    "C": ("C <name> records=<n> unmatched=<n> late=<n> accepted=<n> <whole or cut>",
          f"C {NAME} records={NUMBER} unmatched={NUMBER} late={NUMBER} accepted={NUMBER} (whole|cut)"),
    "E": ("E groups=<n> summaries=<n>", f"E groups={NUMBER} summaries={NUMBER}"),
}
VERDICT = "|".join(["(ok|undefined)", f"(loop) {NAME} {NUMBER} {NUMBER}", f"(drop) {NAME}", f"(path|value) {NUMBER}",
                    f"(rewrite) {NUMBER} {NUMBER}"])
PLACES = {"loop": 0, "drop": 0, "path": 0, "rewrite": 1}  # which of the words of a verdict says where
KINDS = ("ok", "loop", "drop", "path", "rewrite", "value", "undefined")

Delays = namedtuple("Delays", "line start end count sum least greatest classes")
Capture = namedtuple("Capture", "name records unmatched late accepted ending")
# A verdict's words are what follows its kind: a capture or numbers.
Group = namedtuple("Group", "line time first record key members verdict words")


class NoReport(Exception):
    """The number of a line, from 1, and what is wrong there."""


class Report:
    """A report, read line by line. Of its groups those are kept of which `keeps` is true."""

    def __init__(self, lines, keeps=lambda group: False):
        self.keeps, self.kept = keeps, []
        self.verdicts = defaultdict(Counter)  # of each first capture, how many of each kind
        self.places = Counter()  # how many of each kind at each place: a capture, or the n of a path, or a rule
        self.delays, self.captures = [], []
        self.groups = self.summaries = 0
        self.named = {}  # the first line that names a capture
        self.line, self.part, self.time = 0, "G", 0
        for self.line, line in enumerate(lines, 1):
            self.read(line)
        if self.part != "E":
            raise NoReport(self.line + 1, "the E line is missing")

    def demand(self, holds, what, line=None):
        if not holds:
            raise NoReport(line or self.line, what)

    def read(self, octets):
        """Takes up one line."""
        line = octets.decode("ascii", "replace")
        kind = line[:1]
        self.demand(kind in FORMS and line[1:2] == " ", "it begins with none of 'G ', 'P ', 'C ' and 'E '")
        self.demand(self.part != "E", "a line after the E line")
        self.demand("GPCE".index(kind) >= "GPCE".index(self.part), f"a {kind} line after a {self.part} line")
        self.demand(line.endswith("\n"), "the line has no end")
        shown, pattern = FORMS[kind]
        match = re.fullmatch(pattern, line[:-1])
        self.demand(match, f"not of the form '{shown}'")
        self.part = kind
        {"G": self.group, "P": self.row, "C": self.capture, "E": self.end}[kind](*match.groups())

    def number(self, text, bits=64):
        self.demand(int(text) >> bits == 0, f"{text} is not below 2^{bits}")
        return int(text)

    def name(self, name):
        self.named.setdefault(name, self.line)
        return name

    def group(self, time, first, record, key, members, verdict):
        self.demand(self.number(time) >= self.time, "its time is before that of the line above")
        self.time = int(time)
        self.number(record)
        for number in key.split(","):
            self.number(number, 128)
        self.demand(int(members), "it has no members")
        match = re.fullmatch(VERDICT, verdict)
        self.demand(match, f"unknown verdict {verdict!r}")
        kind, *others = (part for part in match.groups() if part is not None)
        for other in others:
            self.number(other, 128) if other.isdigit() else self.name(other)
        self.verdicts[self.name(first)][kind] += 1
        self.groups += 1
        self.summaries += self.number(members)
        group = Group(self.line, int(time), first, int(record), [int(number) for number in key.split(",")], int(members),
                      kind, [int(other) if other.isdigit() else other for other in others])
        self.places[kind, group.words[PLACES[kind]] if kind in PLACES else None] += 1
        if self.keeps(group):
            self.kept.append(group)

    def row(self, start, end, count, total, least, greatest, classes):
        pairs = [tuple(map(self.number, pair.split(":"))) for pair in classes.split(",")]
        row = Delays(self.line, self.name(start), self.name(end), self.number(count), self.number(total, 128),
                     self.number(least), self.number(greatest), dict(pairs))
        digits = [digit for digit, _ in pairs]
        self.demand(digits == sorted(set(digits)), "its classes do not rise")
        self.demand(all(row.classes.values()), "a class without a delay")
        self.demand(sum(row.classes.values()) == row.count, "its classes do not add up to its count")
        self.demand((digits[0], digits[-1]) == (row.least.bit_length(), row.greatest.bit_length()),
                    "its first and last class are not those of its least and greatest")
        self.demand(row.least * row.count <= row.sum <= row.greatest * row.count, "such delays have no such sum")
        self.delays.append(row)

    def capture(self, name, *rest):
        capture = Capture(name, *map(self.number, rest[:4]), rest[4])
        self.demand(all(name != earlier.name for earlier in self.captures), f"capture {name} has a C line already")
        self.demand(capture.records == capture.unmatched + capture.late + capture.accepted,
                    "its records are not the sum of unmatched, late and accepted")
        self.captures.append(capture)

    def end(self, groups, summaries):
        self.demand(self.captures, "there is no C line above")
        places = {capture.name: place for place, capture in enumerate(self.captures)}
        for name, line in self.named.items():
            self.demand(name in places, f"capture {name} has no C line", line)
        pairs = [(places[row.start], places[row.end]) for row in self.delays]
        for pair, after, row in zip(pairs, pairs[1:], self.delays[1:]):
            self.demand(pair < after, "P lines do not stand in the order of the C lines", row.line)
        self.demand(self.number(groups) == self.groups, f"groups={groups}, and there are {self.groups} G lines")
        self.demand(self.number(summaries) == self.summaries,
                    f"summaries={summaries}, and the G lines have {self.summaries} members")
        accepted = sum(capture.accepted for capture in self.captures)
        self.demand(accepted == self.summaries, f"summaries={summaries}, and the C lines have {accepted} accepted")
        delays = sum(row.count for row in self.delays)
        self.demand(not delays or delays == self.summaries - self.groups,
                    f"the P lines have {delays} delays, and the G lines have {self.summaries - self.groups}")

    def firsts(self):
        """The captures that saw packets first, in their order, with the number of each kind of verdict."""
        for capture in self.captures:
            verdicts = self.verdicts.get(capture.name)
            if verdicts:
                yield capture.name, {kind: verdicts[kind] for kind in KINDS if kind in verdicts}


def utc(time):
    """A time in nanoseconds as ISO 8601."""
    return f"{datetime.fromtimestamp(time // 10**9, timezone.utc):%Y-%m-%dT%H:%M:%S}.{time % 10**9:09}Z"


def read_report(name, keeps=lambda group: False):
    """The report in the file of this name, or in the standard input where that is None."""
    with open(name, "rb") if name else sys.stdin.buffer as lines:
        return Report(lines, keeps)


def run(program, main, name):
    """Runs a program's `main` on the report of this name; a fault ends it with a line on the standard error and 1. A
    pipe that is closed by its reader ends it in silence."""
    try:
        main()
        sys.stdout.flush()
    except NoReport as fault:
        line, what = fault.args
        sys.exit(f"{program}: {name or 'standard input'}: line {line}: {what}")
    except BrokenPipeError:
        os.dup2(os.open(os.devnull, os.O_WRONLY), sys.stdout.fileno())
        sys.exit(1)
    except OSError as fault:
        sys.exit(f"{program}: {fault}")
