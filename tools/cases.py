#!/usr/bin/env python3
"""Builds the step files of this repository's own, with the lines that tools/model.py answers them with.

usage: python3 tools/cases.py          at the top of the repository: writes the files into crates/conformance/data, and the
                                       list `names`; then prints what all step files there show, and fails where one of
                                       the things wanted is missing
       python3 tools/cases.py --table  only prints that

A case is a name, a reason and its steps. The files whose names OTHERS has come from elsewhere and stay as they are.
"""

import os
import re
import sys

import coverage
import model
from model import ABORTING, BACKING, CHECKING, IDLE, INSTALLING, LOCKING, OPEN

DATA = os.path.join("crates", "conformance", "data")
OTHERS = re.compile(r"(fault|history)-\d\d|sheet|sheet-to-rest|empty|version-only|full-size|over-size|abandoned")

TOP = 2**64 - 1
LAST = model.LAST_VERSION


def plan(machines=3, coordinators=2, regions=1, capacity=4, start=7, first=1, homes=None):
    """A plan; region r's copies stand on the machines r, r + 1 and r + 2, counted round, where no homes are given."""
    if homes is None:
        homes = [tuple((r + i) % machines for i in range(3)) for r in range(regions)]
    return {
        "machines": machines,
        "coordinators": coordinators,
        "regions": regions,
        "capacity": capacity,
        "start": start,
        "first": first,
        "homes": homes,
    }


def encoded(name, *given):
    """An entry's bytes, without its length."""
    kind = bytes([model.NAMES.index(name)])
    if name != "setup":
        return kind + b"".join(n.to_bytes(width, "big") for n, width in zip(given, model.FIELDS[name], strict=True))
    (its,) = given
    sizes = bytes(its[field] for field in ["machines", "coordinators", "regions", "capacity"])
    numbers = its["start"].to_bytes(8, "big") + its["first"].to_bytes(8, "big")
    return kind + sizes + numbers + bytes(machine for home in its["homes"] for machine in home)


CASES = []


class Case:
    """A step file as it is made. It keeps a directory of the model beside it, so that a case can ask how things stand."""

    def __init__(self, name, why, its=None):
        self.name, self.why = name, why
        self.data = b"\x01"
        self.directory = None
        CASES.append(self)
        if its is not None:
            self.setup(its)

    def bytes(self, some):
        self.data += some
        return self

    def entry(self, some):
        return self.bytes(len(some).to_bytes(2, "big") + some)

    def setup(self, its):
        try:
            self.directory = model.Directory(its)
        except model.Refused:
            pass
        return self.entry(encoded("setup", its))

    def call(self, name, *given):
        """Makes the call, and gives its answer, or None where it is refused."""
        self.entry(encoded(name, *given))
        try:
            return self.directory.call(name, *given)
        except model.Refused:
            return None

    def calls(self, *some):
        """Calls as words: "read 0 5"."""
        for words in some:
            name, *given = words.split()
            self.call(name, *map(int, given))
        return self

    # How things stand

    def phase(self, c):
        return self.directory.coordinators[c]["phase"]

    def machines(self):
        return range(self.directory.plan["machines"])

    def unpolled(self, c, m):
        return len(self.directory.logs[c, m]) - self.directory.polled[c, m]

    # Steps that go together

    def begin(self, c, reads, writes=()):
        """A transaction up to its commit: addresses to read, and pairs of an address and a value to write."""
        self.call("open", c)
        for address in reads:
            self.call("read", c, address)
        for address, value in writes:
            self.call("write", c, address, value)
        self.call("commit", c)
        return self

    def poll_all(self, c):
        for m in self.machines():
            for _ in range(self.unpolled(c, m)):
                self.call("poll", c, m)
        return self

    def go_on(self, c):
        """One call that takes a commit on."""
        phase = self.phase(c)
        assert phase not in (IDLE, OPEN), f"{self.name}: no commit to take on"
        if phase == CHECKING:
            return self.call("check", c)
        if phase != LOCKING:
            return self.call("send", c)
        who = self.directory.coordinators[c]
        if len(who["sent"]) < len(self.directory.primary_machines(who)):
            return self.call("send", c)
        for m in self.machines():
            if self.directory.queues[c, m]:
                return self.call("take", c, m)
        return self.poll_all(c)

    def until(self, c, *phases):
        while self.phase(c) not in phases:
            self.go_on(c)
        return self

    def install(self, c):
        """Takes a commit to its end and has all its records handled."""
        self.go_on(c)
        return self.until(c, IDLE).poll_all(c)

    def end(self, c):
        """Takes a transaction to its end, whether its commit was accepted or not."""
        if self.phase(c) == OPEN:
            self.call("abandon", c)
        return self.until(c, IDLE).poll_all(c)

    def trim_all(self, c):
        for m in self.machines():
            if self.directory.is_untrimmed(c, m):
                self.call("trim", c, m)
        return self.poll_all(c)

    def change(self, c, *writes):
        """A whole transaction that reads and writes these addresses, and the logs trimmed after it."""
        return self.begin(c, [address for address, _ in writes], writes).install(c).trim_all(c)

    def to_rest(self):
        """Every transaction is ended and every log is empty."""
        coordinators = range(self.directory.plan["coordinators"])
        for c in coordinators:
            self.end(c)
        for c in coordinators:
            self.trim_all(c)
        return self

    def look(self, c, addresses):
        """Shows words, eight at most, without changing any."""
        self.call("open", c)
        for address in addresses:
            self.call("read", c, address)
        self.call("abandon", c)
        return self


# Refusals, a file for each call. Each refused call is followed by calls which show that nothing has changed.


def refused_until_commit():
    case = Case("refused-open", "no such coordinator; a transaction is open already", plan(coordinators=3))
    case.calls("open 3", "open 255", "open 2", "open 2", "abandon 2", "open 2")

    case = Case("refused-read", "no such coordinator; idle; past the last address; a ninth word", plan())
    case.calls("read 2 0", "read 255 0", "read 0 0", "open 0", "read 0 64", "read 0 65535")
    case.calls(*[f"read 0 {a}" for a in range(9)], "read 0 63", "read 0 7", "commit 0", "check 0")

    case = Case("refused-write", "no such coordinator; idle; past the last address; not read; a fifth word", plan())
    case.calls("write 2 0 1", "write 255 0 1", "write 0 0 1", "open 0", "write 0 0 1", "read 0 0", "write 0 64 1")
    case.calls("write 0 65535 1", "write 0 1 1", *[f"read 0 {a}" for a in range(1, 6)])
    case.calls(*[f"write 0 {a} {a + 10}" for a in range(5)], "read 0 4", "write 0 0 99", "read 0 0")
    case.calls("commit 0").install(0).look(1, range(6))

    case = Case("refused-abandon", "no such coordinator; idle; committed", plan())
    case.calls("abandon 2", "abandon 255", "abandon 0").begin(0, [1], [(1, 10)]).calls("abandon 0").install(0).look(1, [1])

    case = Case("refused-commit", "no such coordinator; idle; committed; no room until a TRUNCATE is polled", plan())
    case.calls("commit 2", "commit 255", "commit 0").begin(0, [1], [(1, 10)]).calls("commit 0").install(0)
    case.calls("commit 0").begin(0, [1], [(1, 11)]).calls("read 0 1", "trim 0 0", "commit 0", "poll 0 0", "commit 0")
    case.install(0).to_rest().look(1, [1])

    case = Case("refused-commit-9", "the last number was given; that the log is full comes later", plan(first=TOP))
    case.begin(0, [1], [(1, 10)]).install(0)
    case.begin(0, [1], [(1, 11)]).calls("read 0 1", "abandon 0", "open 0", "commit 0", "abandon 0").look(1, [1])


def refused_in_commit():
    case = Case("refused-send", "no such coordinator; nothing to send; every LOCK is sent", plan())
    case.calls("send 2", "send 255", "send 0", "open 0", "send 0", "read 0 1", "write 0 1 10", "commit 0")
    case.calls("send 0", "send 0", "send 0", "poll 0 0", "send 0", "take 0 0", "send 0").install(0).calls("send 0")

    case = Case("refused-poll", "no such coordinator; no such machine; nothing unpolled, at first and later", plan())
    case.calls("poll 2 0", "poll 255 0", "poll 0 3", "poll 0 255", "poll 0 0").begin(0, [1], [(1, 10)])
    case.calls("poll 0 0", "send 0", "poll 1 0", "poll 0 1", "poll 0 0", "poll 0 0").install(0).calls("poll 0 0", "poll 0 1")
    case.calls("trim 0 0", "poll 0 0", "poll 0 0").look(1, [1])

    case = Case("refused-take", "no such coordinator; no such machine; not locking; no reply there", plan(regions=2))
    case.calls("take 2 0", "take 255 0", "take 0 3", "take 0 255", "take 0 0", "open 0", "take 0 0", "abandon 0")
    case.begin(0, [1, 65], [(1, 10), (65, 650)]).calls("take 0 0", "send 0", "take 0 0", "poll 0 0", "take 0 1", "take 0 0")
    case.calls("take 0 0", "send 0", "poll 0 1", "take 0 0", "take 0 2", "take 0 1", "take 0 1").install(0).look(1, [1, 65])

    case = Case("refused-check", "no such coordinator; not checking", plan())
    case.calls("check 2", "check 255", "check 0", "open 0", "check 0", "read 0 1", "check 0", "commit 0", "check 0", "check 0")

    case = Case("refused-trim", "no such coordinator; no such machine; committing; nothing to truncate", plan())
    case.calls("trim 2 0", "trim 255 0", "trim 0 3", "trim 0 255", "trim 0 0").begin(0, [1], [(1, 10)])
    case.calls("trim 0 0", "send 0", "trim 0 0", "poll 0 0", "take 0 0", "trim 0 0").until(0, IDLE)
    case.calls("trim 1 0", "trim 0 0", "trim 0 0").poll_all(0).calls("trim 0 0", "trim 0 1", "open 0", "trim 0 1", "trim 0 2")
    case.poll_all(0).calls("trim 0 2", "abandon 0").look(1, [1])


def refused_in_order():
    case = Case("refused-first", "several conditions hold, and the first one in order decides", plan(start=LAST - 1))
    case.calls("poll 2 3", "take 2 3", "trim 2 3", "read 2 64", "write 2 64 1")  # 3 before 4, 5, 6
    case.calls("take 0 3", "poll 0 3", "trim 0 3", "open 0", "take 0 3", "abandon 0")  # 4 before 5 and 11
    case.calls("read 0 64", "write 0 64 1", "take 0 0", "send 0")  # 5 before 6, 8, 11
    case.change(1, (0, 1)).calls("open 0", *[f"read 0 {a}" for a in range(8)])
    case.calls("read 0 64", "write 0 64 1", "read 0 8")  # 6 before 7 and 8
    case.calls(*[f"write 0 {a} 1" for a in range(1, 5)])
    case.calls("write 0 9 1", "write 0 0 1", "write 0 5 1")  # 8 and 9 before 7
    case.begin(1, [20], [(20, 1)]).calls("trim 1 0", "trim 1 1")  # 5 before 11
    case.install(1).calls("commit 0").install(0)


def wrong_calls(case, c):
    """Every call that the coordinator's phase does not allow."""
    given = {"read": [5], "write": [5, 1], "take": [0], "trim": [0]}
    for name in model.CALLS:
        if case.phase(c) not in coverage.ALLOWED[name]:
            case.call(name, c, *given.get(name, []))


def refused_by_phase():
    case = Case("refused-phases", "every call in every phase that does not allow it", plan(regions=2, capacity=8))
    wrong_calls(case, 0)
    case.calls("open 0", "read 0 5", "read 0 6", "read 0 70", "write 0 5 50", "write 0 70 700")
    wrong_calls(case, 0)
    case.calls("commit 0")
    for phase in [LOCKING, CHECKING, BACKING, INSTALLING]:
        case.until(0, phase)
        wrong_calls(case, 0)
    case.install(0)
    # A word that was read changes before the commit, so a LOCK fails.
    case.calls("open 0", "read 0 5", "write 0 5 51", "read 0 70", "write 0 70 701").change(1, (5, 52)).calls("commit 0")
    case.until(0, ABORTING)
    wrong_calls(case, 0)
    case.install(0)
    wrong_calls(case, 0)
    case.to_rest().look(1, [5, 6, 70])


# Set-ups


def set_ups():
    Case("setup-least", "every value of the plan at its lower end", plan(3, 1, 1, 4, 0, 0)).change(0, (0, 1)).look(0, [0, 63])
    case = Case("setup-most", "every value of the plan at its upper end", plan(5, 4, 8, 16, LAST, TOP))
    case.calls("open 3", "read 3 511", "write 3 511 1", "commit 3", "check 3", "open 3", "commit 3", "poll 3 4", "trim 3 4")

    def refuse(name, why, **values):
        Case(f"setup-{name}", why, plan(**values)).entry(encoded("open", 0))

    refuse("machines-2", "too few machines", machines=2, homes=[(0, 1, 2)])
    refuse("machines-6", "too many machines", machines=6)
    refuse("coordinators-0", "no coordinator", coordinators=0)
    refuse("coordinators-5", "too many coordinators", coordinators=5)
    refuse("regions-0", "no region", regions=0)
    refuse("regions-9", "too many regions", regions=9)
    refuse("capacity-3", "too few places in a log", capacity=3)
    refuse("capacity-17", "too many places in a log", capacity=17)
    refuse("start-past", "a start version past the last", start=LAST + 1)
    refuse("twice-primary-first", "primary and first backup on one machine", homes=[(1, 1, 2)])
    refuse("twice-primary-second", "primary and second backup on one machine", homes=[(2, 1, 2)])
    refuse("twice-backups", "both backups on one machine", homes=[(0, 1, 1)])
    refuse("past-primary", "a primary on a machine from M up", homes=[(3, 1, 2)])
    refuse("past-first", "a first backup on a machine from M up", homes=[(0, 3, 2)])
    refuse("past-second", "a second backup on a machine from M up", machines=4, homes=[(0, 1, 4)])
    homes = [(0, 1, 2)] * 7 + [(0, 1, 3)]
    refuse("past-last-region", "the eighth region alone is wrong", regions=8, homes=homes)


# Faults. Each file ends in its one fault.


def faults():
    fine = plan()
    Case("version-2", "another version byte").data = b"\x02" + CASES[0].data[1:]
    Case("cut-length", "one of two length bytes", fine).calls("open 0").bytes(b"\x00")
    Case("cut-content", "two length bytes and nothing behind", fine).calls("open 0").bytes(b"\x00\x02")
    Case("cut-last-byte", "a write without its last byte", fine).calls("open 0").bytes(
        b"\x00\x0c" + encoded("write", 0, 0, 1)[:-1]
    )
    Case("cut-unknown", "an unknown kind, cut short: that it is cut comes first", fine).bytes(b"\x00\x02\x0b")
    Case("kind-11", "the first unknown kind, though its length is no entry's", fine).calls("open 0").entry(b"\x0b")
    Case("kind-255", "the last unknown kind", fine).calls("open 0").entry(b"\xff\x00")
    Case("length-0", "an entry of no bytes", fine).calls("open 0").entry(b"").calls("open 0")
    # Read and write have a form of their own, and are tried both ways; the others share theirs and take turns.
    given = {"read": [0, 5], "write": [0, 5, 1], "poll": [0, 0], "take": [0, 0], "trim": [0, 0]}
    for name in ["open", "read", "write", "commit", "check", "take"]:
        entry = encoded(name, *given.get(name, [0]))
        Case(f"short-{name}", "a byte too few", fine).calls("open 0", "read 0 5").entry(entry[:-1])
    for name in ["read", "write", "abandon", "send", "poll", "trim"]:
        entry = encoded(name, *given.get(name, [0]))
        Case(f"long-{name}", "a byte too many", fine).calls("open 0", "read 0 5").entry(entry + b"\x00")
    two = encoded("setup", plan(regions=2))
    Case("short-setup", "three bytes too few: R says two regions, and there is one").entry(two[:-3])
    Case("long-setup", "a byte too many").entry(encoded("setup", fine) + b"\x00")
    Case("short-setup-r", "a set-up that ends before its R byte").entry(encoded("setup", fine)[:3])
    Case("first-call", "a call where the set-up should be").entry(encoded("open", 0))
    Case("second-setup", "a second set-up", fine).calls("open 0", "open 2").entry(encoded("setup", fine)).calls("open 0")
    Case("second-setup-short", "a second set-up, and too short: its length comes first", fine).entry(b"\x00\x03")
    Case("second-setup-bad", "a second set-up with a bad plan: that it is the second comes first", fine).entry(
        encoded("setup", plan(machines=6))
    )


# Phases


def phases():
    case = Case("phases-reading", "transactions that write nothing, to each of their ends", plan())
    case.calls("open 0", "abandon 0", "open 0", "commit 0").begin(0, [1]).install(0).begin(0, [1, 2, 3]).install(0)
    case.begin(0, [1, 2]).change(1, (2, 20)).install(0)  # the second check fails
    case.begin(0, [1]).change(1, (1, 10)).install(0)  # the first check fails
    case.begin(0, [1, 2]).calls("trim 1 0", "poll 0 0").install(0).look(1, [1, 2])

    case = Case("phases-writing", "only written words: locking goes to backing", plan(5, 2, 5, 8))
    case.change(0, (0, 1)).change(0, (0, 2), (64, 3), (128, 4), (319, 5))
    case.begin(0, [0, 64], [(0, 6), (64, 7)]).calls("send 0", "poll 0 0", "take 0 0", "send 0", "poll 0 1", "take 0 1")
    case.until(0, INSTALLING).calls("trim 0 0", "poll 0 0").install(0).calls("open 0", "trim 0 0", "poll 0 0", "abandon 0")
    case.to_rest().look(1, [0, 64, 128, 319])

    case = Case("phases-both", "written words and words only read: locking, checking, backing", plan(4, 2, 4, 8))
    case.begin(0, [0, 1, 64], [(0, 5)]).install(0)
    case.begin(0, [0, 1, 64, 200], [(64, 6)]).until(0, CHECKING).calls("poll 0 0", "check 0", "poll 0 1", "check 0")
    case.install(0).to_rest().look(1, [0, 1, 64, 200])

    case = Case("phases-aborting", "a lock that fails, and a check that fails behind locks that held", plan(4, 2, 4, 16))
    case.calls("open 0", *[f"read 0 {a}" for a in [0, 64, 128]], *[f"write 0 {a} 9" for a in [0, 64, 128]])
    case.change(1, (64, 1)).calls("commit 0").until(0, ABORTING).calls("poll 0 0").install(0)
    case.begin(0, [0, 64, 65], [(0, 10), (64, 11)]).until(0, CHECKING).change(1, (65, 2)).install(0)
    case.begin(0, [0, 65], [(0, 12)]).until(0, CHECKING).change(1, (65, 3)).install(0)
    case.begin(0, [0, 64], [(0, 13), (64, 14)]).install(0).to_rest().look(1, [0, 64, 65, 128])

    case = Case("phases-polled", "a poll in each phase, of each kind of record", plan(3, 2, 3, 16))
    for step in range(5):
        case.calls(f"poll 0 {step % 3}").begin(0, [0, 1, 64], [(0, step), (64, step)]).calls("poll 0 0")
        for phase in [LOCKING, CHECKING, BACKING, INSTALLING]:
            case.until(0, phase).calls("poll 0 0", "poll 0 1", "poll 0 2")
        case.until(0, IDLE).calls("trim 0 0", "open 0", "poll 0 0", "trim 0 1", "poll 0 1", "abandon 0").poll_all(0)
    case.calls("open 0", "read 0 0", "write 0 0 1", "read 0 64", "write 0 64 1").change(1, (0, 8)).calls("commit 0")
    case.until(0, ABORTING).calls("poll 0 0", "send 0", "poll 0 0").to_rest().look(1, [0, 1, 64])


# Limits


def limits_of_a_transaction():
    case = Case("limit-reads", "eight reads, then a ninth; a word read before is no ninth", plan())
    case.calls("open 0", *[f"read 0 {a}" for a in range(10, 19)], "read 0 10", "read 0 17", "write 0 10 1", "read 0 10")
    case.calls("commit 0").install(0).trim_all(0)
    case.calls("open 0", *[f"read 0 {a}" for a in range(10, 18)], "read 0 18", "commit 0").install(0)

    case = Case("limit-writes", "four written words, then a fifth; a word written before is no fifth", plan())
    case.calls("open 0", *[f"read 0 {a}" for a in range(6)], *[f"write 0 {a} {a + 1}" for a in range(5)])
    case.calls("write 0 0 100", "write 0 3 103", "write 0 5 1", "read 0 0", "read 0 3", "read 0 4", "commit 0")
    case.install(0).trim_all(0).look(1, range(6))


def limits_of_logs():
    case = Case("limit-room-4", "K 4: one word whose machine has no backup of it leaves one place", plan(capacity=4))
    case.begin(0, [1], [(1, 10)]).install(0).begin(0, [1], [(1, 11)]).calls("trim 0 0", "commit 0", "poll 0 0", "commit 0")
    case.calls("abandon 0").trim_all(0)
    # A commit that only reads needs no place: it passes though no other would.
    case.begin(0, [1], [(1, 12)]).install(0).begin(0, [1]).install(0)

    case = Case("limit-room-4-full", "K 4: a machine that is primary of one word and backup of another", plan(3, 2, 3, 4))
    case.begin(0, [0, 64], [(0, 1), (64, 2)]).install(0).begin(0, [128], [(128, 3)]).calls("abandon 0").trim_all(0)
    case.begin(0, [128], [(128, 3)]).install(0).to_rest().look(1, [0, 64, 128])

    case = Case("limit-room-5", "K 5: what K 4 has no room for passes", plan(capacity=5))
    for value in range(3):
        case.begin(0, [1], [(1, value)]).end(0)
    case.to_rest().look(1, [1])

    case = Case("limit-room-16", "K 16: the fifth commit fills the log, the sixth has no room", plan(3, 2, 3, 16))
    for value in range(6):
        case.begin(0, [0, 64, 128], [(0, value), (64, value), (128, value)]).end(0)
    case.begin(0, [0]).install(0).calls("trim 0 0", "open 0", "commit 0", "trim 0 1", "trim 0 2").poll_all(0)
    case.begin(0, [0], [(0, 9)]).install(0).to_rest().look(1, [0, 64, 128])


def limits_of_numbers():
    case = Case("limit-number", "the last number is given, and after it none", plan(capacity=8, first=TOP - 1))
    case.begin(0, [1], [(1, 10)]).install(0).calls("open 0", "commit 0", "open 0", "commit 0", "read 0 1", "commit 0")
    case.calls("write 0 1 11", "commit 0", "abandon 0", "trim 0 0", "trim 0 1", "trim 0 2").poll_all(0)
    case.calls("open 1", "commit 1", "open 1", "commit 1", "open 1", "commit 1")

    case = Case("limit-version", "words at the last version are read and checked, not written", plan(start=LAST))
    case.calls("open 0", "read 0 5", "write 0 5 1", "read 0 6", "write 0 5 1", "commit 0", "check 0", "check 0")

    case = Case("limit-version-below", "one below the last: a word is written once and no more", plan(start=LAST - 1))
    case.change(0, (5, 50)).begin(1, [5]).install(1)
    case.calls("open 1", "read 1 5", "write 1 5 51", "read 1 6", "write 1 6 60", "write 1 5 52", "read 1 5", "commit 1")
    case.install(1).to_rest().look(0, [5, 6])

    for regions in [1, 8]:
        last = 64 * regions - 1
        case = Case(f"limit-address-{last}", "the last address and the one past it", plan(5, 2, regions, 8))
        case.calls("open 0", f"read 0 {last}", f"read 0 {last + 1}", f"write 0 {last + 1} 1", f"write 0 {last} 1", "commit 0")
        case.install(0).to_rest().look(1, [0, last])


# Conflicts, small


def conflicts():
    case = Case("conflict-crossed", "each reads what the other writes, and both lock: only holders show it", plan(capacity=8))
    case.begin(0, [1, 2], [(1, 10)]).begin(1, [1, 2], [(2, 20)]).until(0, CHECKING).until(1, CHECKING)
    case.calls("check 0", "check 1").to_rest().look(0, [1, 2])

    case = Case("conflict-own-lock", "a word is still held by the reader's own commit: its check fails", plan(3, 2, 2, 16))
    case.begin(0, [5], [(5, 50)]).until(0, IDLE).begin(0, [5]).calls("check 0", "poll 0 0", "poll 0 0")
    case.begin(0, [5]).install(0)
    # The same with a word written besides: the transaction is aborting.
    case.begin(0, [5], [(5, 51)]).until(0, IDLE).begin(0, [5, 70], [(70, 700)]).calls("send 0", "poll 0 1", "poll 0 1")
    case.calls("take 0 1", "check 0", "poll 0 0").install(0)
    # The same once more, and its COMMIT-PRIMARY is polled before the check, which fails by the version.
    case.begin(0, [5], [(5, 52)]).until(0, IDLE).begin(0, [5, 70], [(70, 701)]).poll_all(0).install(0)
    case.begin(0, [5, 70], [(70, 702)]).install(0).to_rest().look(1, [5, 70])

    case = Case("conflict-lock", "the second LOCK fails by holder; its ABORT leaves the first alone", plan(capacity=8))
    case.begin(0, [1, 2], [(1, 10), (2, 20)]).begin(1, [2, 3], [(3, 31), (2, 21)])
    case.calls("send 0", "poll 0 0", "send 1", "poll 1 0", "take 1 0", "send 1", "poll 1 0", "take 0 0").install(0)
    case.to_rest().look(1, [1, 2, 3])

    case = Case("conflict-lock-version", "the second LOCK fails by version, and none of its lines is locked", plan(capacity=8))
    case.calls("open 1", "read 1 1", "read 1 2", "write 1 1 11", "write 1 2 21").change(0, (2, 20)).calls("commit 1")
    case.install(1).look(0, [1, 2]).change(0, (1, 10)).to_rest().look(1, [1, 2])

    case = Case("truncates-crossed", "an older TRUNCATE behind a newer one puts nothing", plan(3, 2, 1, 8))
    case.begin(0, [5], [(5, 50)]).install(0).begin(1, [5], [(5, 51)]).install(1)
    case.calls("trim 1 1", "poll 1 1", "trim 0 1", "poll 0 1")  # machine 1: the newer first
    case.calls("trim 0 2", "poll 0 2", "trim 1 2", "poll 1 2")  # machine 2: the older first
    case.to_rest().look(0, [5])

    case = Case("truncates-mixed", "TRUNCATEs of several words, some older and some newer", plan(3, 2, 3, 16))
    case.begin(0, [5, 6, 70], [(5, 50), (6, 60), (70, 700)]).install(0).begin(1, [5, 7, 70], [(5, 51), (7, 71), (70, 701)])
    case.install(1).begin(0, [5, 7], [(5, 52), (7, 72)]).install(0)
    case.calls("trim 1 1", "poll 1 1", "trim 0 1", "poll 0 1", "trim 0 2", "poll 0 2", "trim 1 2", "poll 1 2")
    case.to_rest().look(1, [5, 6, 7, 70])

    case = Case("truncates-waiting", "records behind an unpolled TRUNCATE stay for the next one", plan(3, 2, 1, 16))
    case.begin(0, [5], [(5, 50)]).install(0).calls("trim 0 0", "trim 0 1", "trim 0 2")
    case.begin(0, [6], [(6, 60)]).calls("send 0", "poll 0 0", "poll 0 0", "poll 0 0").until(0, IDLE)
    case.calls("poll 0 1", "poll 0 1", "poll 0 1", "trim 0 1", "trim 0 2", "poll 0 1", "poll 0 2", "poll 0 2", "poll 0 2")
    case.to_rest().look(1, [5, 6])


# Long mixed runs, from a seed


class Seeded:
    """Numbers from a seed, the same on every machine."""

    def __init__(self, seed):
        self.state = seed

    def below(self, n):
        self.state = (self.state * 6364136223846793005 + 1442695040888963407) % 2**64
        return (self.state >> 33) % n

    def pick(self, some):
        return some[self.below(len(some))]

    def chance(self, percent):
        return self.below(100) < percent


def mixed(case, rng, count, hot, style):
    """Entries of four coordinators, `count` of them, on the addresses `hot`.

    The style says in percent how often a call is made up without a look at the state, how often a machine polls, how often
    an idle coordinator trims, and how often a word that was read is written.
    """
    coordinators, machines = case.directory.plan["coordinators"], case.directory.plan["machines"]
    for _ in range(count):
        c = rng.below(coordinators)
        unpolled = [(d, m) for d in range(coordinators) for m in range(machines) if case.unpolled(d, m)]
        untrimmed = [m for m in range(machines) if case.directory.is_untrimmed(c, m)]
        if rng.chance(style["blind"]):
            blind(case, rng, c, hot)
        elif unpolled and rng.chance(style["poll"]):
            case.call("poll", *rng.pick(unpolled))
        elif case.phase(c) in (IDLE, OPEN) and untrimmed and rng.chance(style["trim"]):
            case.call("trim", c, rng.pick(untrimmed))
        elif case.phase(c) == IDLE:
            case.call("open", c)
        elif case.phase(c) == OPEN:
            open_step(case, rng, c, hot, style)
        else:
            commit_step(case, rng, c)


def blind(case, rng, c, hot):
    name = rng.pick(model.CALLS)
    second = rng.pick(hot) if name in ("read", "write") else rng.below(case.directory.plan["machines"] + 1)
    given = [c + (5 if rng.chance(10) else 0), second, rng.below(2**32)]
    case.call(name, *given[: len(model.FIELDS[name])])


def open_step(case, rng, c, hot, style):
    who = case.directory.coordinators[c]
    done = len(who["reads"]) + len(who["writes"])
    if rng.chance(3):
        case.call("abandon", c)
    elif done and rng.chance(15 + 5 * done):
        if case.call("commit", c) is None:
            untrimmed = [m for m in case.machines() if case.directory.is_untrimmed(c, m)]
            if untrimmed and rng.chance(70):
                case.call("trim", c, rng.pick(untrimmed))
            else:
                case.call("abandon", c)
    elif who["reads"] and rng.chance(style["write"]):
        case.call("write", c, rng.pick(list(who["reads"])), rng.below(2**32) << rng.below(33))
    else:
        case.call("read", c, rng.pick(hot))


def commit_step(case, rng, c):
    who, directory = case.directory.coordinators[c], case.directory
    if case.phase(c) == CHECKING:
        case.call("check", c)
    elif case.phase(c) != LOCKING or len(who["sent"]) < len(directory.primary_machines(who)):
        case.call("send", c)
    else:
        ready = [m for m in case.machines() if directory.queues[c, m]]
        waiting = [m for m in case.machines() if case.unpolled(c, m)]
        if ready:
            case.call("take", c, rng.pick(ready))
        else:
            case.call("poll", c, rng.pick(waiting))


# Eight regions on five machines: each machine has a primary, and most have copies of each role.
EIGHT_HOMES = [(0, 1, 2), (1, 2, 3), (2, 3, 4), (3, 4, 0), (4, 0, 1), (0, 2, 4), (1, 4, 2), (3, 0, 1)]


def four_on_five():
    def run(number, why, seed, count, hot, capacity=16, start=7, rest=True, **style):
        style = {"blind": 6, "poll": 30, "trim": 40, "write": 45} | style
        its = plan(5, 4, 8, capacity, start, seed % 1000, EIGHT_HOMES)
        case = Case(f"four-on-five-{number}", why, its)
        mixed(case, Seeded(seed), count, hot, style)
        if rest:
            case.to_rest()
            for at in range(0, len(hot), 8):
                case.look(0, hot[at : at + 8])

    few = [5, 70, 200, 333]
    some = [5, 6, 70, 130, 200, 260, 333, 390, 450, 511]
    many = list(range(0, 512, 16))
    run(1, "few words and many conflicts", 11, 1000, few, trim=20)
    run(2, "some words, late TRUNCATEs, left in the midst", 22, 1000, some, trim=12, rest=False)
    run(3, "short logs: commits without room", 33, 1000, some, capacity=4, trim=15)
    run(4, "machines that lag", 44, 3000, some, poll=12, trim=15)
    run(5, "many words, many writes", 55, 1200, many, write=60)
    run(6, "close to the last version, and many blind calls", 66, 1000, few, start=LAST - 6, capacity=9, blind=20)
    run(7, "two words that all want", 77, 1000, [63, 64], poll=20, write=55, trim=20, rest=False)


PARTS = [refused_until_commit, refused_in_commit, refused_in_order, refused_by_phase, set_ups, faults, phases]
PARTS += [limits_of_a_transaction, limits_of_logs, limits_of_numbers, conflicts, four_on_five]


def build():
    for part in PARTS:
        part()
    names = [case.name for case in CASES]
    assert len(set(names)) == len(names), "two cases of one name"
    assert not any(OTHERS.fullmatch(name) for name in names), "a name that another file has"


def write():
    for name in os.listdir(DATA):
        stem = name.rsplit(".", 1)[0]
        if name != "names" and not OTHERS.fullmatch(stem):
            os.remove(os.path.join(DATA, name))
    for case in CASES:
        lines, _ = model.play(case.data)
        with open(os.path.join(DATA, case.name + ".steps"), "wb") as it:
            it.write(case.data)
        with open(os.path.join(DATA, case.name + ".lines"), "w", encoding="utf-8", newline="") as it:
            it.write(model.text(lines))
    with open(os.path.join(DATA, "names"), "w", encoding="utf-8", newline="") as it:
        it.write("".join(name + "\n" for name in stems()))
    print(f"{len(CASES)} cases written")


def stems():
    return sorted(name.removesuffix(".steps") for name in os.listdir(DATA) if name.endswith(".steps"))


def main():
    if not os.path.isdir(DATA):
        sys.exit("run it at the top of the repository")
    if sys.argv[1:] != ["--table"]:
        build()
        write()
    plays = []
    for stem in stems():
        with open(os.path.join(DATA, stem + ".steps"), "rb") as it:
            data = it.read()
        plays.append((stem, data, model.play(data)[1]))
    missing = coverage.show(plays)
    sys.exit(1 if missing else 0)


if __name__ == "__main__":
    main()
