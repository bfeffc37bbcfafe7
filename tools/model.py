#!/usr/bin/env python3
"""A model of the directory, written from docs/PROTOCOL.md, docs/REFUSALS.md and docs/STEPFILE.md alone.

It shares nothing with the program, so that the two can be held against each other: plain lists and dicts, numbers without
bounds, no thought of speed. What the program must print for a step file is what this model prints.

usage: python3 tools/model.py FILE.steps ..     prints the lines of each file
       python3 tools/model.py --compare FOLDER  compares with the .lines beside each .steps, and fails where one differs
"""

import os
import sys

LAST_VERSION = 2**60 - 1
LAST_NUMBER = 2**64 - 1
WORDS_A_REGION = 64
MOST_READS = 8
MOST_WRITES = 4
MOST_REPLIES = 4
MOST_BYTES = 65_536

LOCK, COMMIT_BACKUP, COMMIT_PRIMARY, ABORT, TRUNCATE = 1, 2, 3, 4, 5
NOTHING, COMMITTED, ABORTED = 0, 1, 2

IDLE, OPEN, LOCKING, CHECKING = "idle", "open", "locking", "checking"
BACKING, INSTALLING, ABORTING = "backing", "installing", "aborting"
PHASES = [IDLE, OPEN, LOCKING, CHECKING, BACKING, INSTALLING, ABORTING]

NAMES = ["setup", "open", "read", "write", "abandon", "commit", "send", "poll", "take", "check", "trim"]
CALLS = NAMES[1:]

# What each entry's fields are: how many bytes each has. A set-up's are counted by its own rule.
FIELDS = {
    "open": [1],
    "read": [1, 2],
    "write": [1, 2, 8],
    "abandon": [1],
    "commit": [1],
    "send": [1],
    "poll": [1, 1],
    "take": [1, 1],
    "check": [1],
    "trim": [1, 1],
}


class Refused(Exception):
    """A call or a set-up was turned back; its number is the argument."""


class Fault(Exception):
    """The file cannot be read on: cause, place and layer."""


# The plan


def is_fine_plan(plan):
    ranges = [("machines", 3, 5), ("coordinators", 1, 4), ("regions", 1, 8), ("capacity", 4, 16), ("start", 0, LAST_VERSION)]
    if any(not low <= plan[name] <= high for name, low, high in ranges):
        return False
    return all(len(set(home)) == 3 and max(home) < plan["machines"] for home in plan["homes"])


def new_coordinator(plan):
    return {
        "phase": IDLE,
        "next": plan["first"],  # the number that the next commit gives
        "reads": {},  # address: version and value as recorded, in order of reading
        "writes": {},  # address: the value last written, in order of first writing
        "sent": set(),  # the machines that have got this phase's record
        "replies": {},  # machine: whether it took the locks
        "checked": 0,  # how many of the words only read have passed their check
    }


class Directory:
    """Coordinators, logs, queues and three memories, for one plan."""

    def __init__(self, plan):
        if not is_fine_plan(plan):
            raise Refused(1)
        self.plan = plan
        self.size = WORDS_A_REGION * plan["regions"]
        self.primaries = [{"version": plan["start"], "holder": 0, "value": 0} for _ in range(self.size)]
        self.backups = [[{"version": plan["start"], "value": 0} for _ in range(self.size)] for _ in range(2)]
        pairs = [(c, m) for c in range(plan["coordinators"]) for m in range(plan["machines"])]
        self.logs = {pair: [] for pair in pairs}
        self.polled = {pair: 0 for pair in pairs}
        self.queues = {pair: [] for pair in pairs}
        self.coordinators = [new_coordinator(plan) for _ in range(plan["coordinators"])]
        self.remarks = []  # what the last call met, for the coverage tables

    def call(self, name, *given):
        """What the call answers: two numbers and an outcome. Or it is refused, and then nothing has changed."""
        c = given[0]
        self.remarks = []
        if c >= self.plan["coordinators"]:
            raise Refused(3)
        if name in ("poll", "take", "trim") and given[1] >= self.plan["machines"]:
            raise Refused(4)
        first, second, outcome = getattr(self, name)(*given)
        self.well_formed()
        return first, second, outcome

    def well_formed(self):
        """No log and no queue is over its bound: the model's own test of itself."""
        assert all(len(log) <= self.plan["capacity"] for log in self.logs.values())
        assert all(len(queue) <= MOST_REPLIES for queue in self.queues.values())

    # Which machines have a part in a transaction, and which part

    def home(self, address):
        return self.plan["homes"][address // WORDS_A_REGION]

    def primary_addresses(self, who, machine):
        return [a for a in who["writes"] if self.home(a)[0] == machine]

    def backup_addresses(self, who, machine):
        return [a for a in who["writes"] if machine in self.home(a)[1:]]

    def primary_machines(self, who):
        return [m for m in range(self.plan["machines"]) if self.primary_addresses(who, m)]

    def backup_machines(self, who):
        return [m for m in range(self.plan["machines"]) if self.backup_addresses(who, m)]

    def lines(self, who, addresses):
        return [{"address": a, "version": who["reads"][a][0], "value": who["writes"][a]} for a in addresses]

    def in_phase(self, c, *phases):
        who = self.coordinators[c]
        if who["phase"] not in phases:
            raise Refused(5)
        return who

    # A transaction until its commit

    def open(self, c):
        who = self.in_phase(c, IDLE)
        who.update(phase=OPEN, reads={}, writes={}, sent=set(), replies={}, checked=0)
        return 0, 0, NOTHING

    def read(self, c, address):
        who = self.in_phase(c, OPEN)
        if address >= self.size:
            raise Refused(6)
        if address not in who["reads"]:
            if len(who["reads"]) == MOST_READS:
                raise Refused(7)
            word = self.primaries[address]
            who["reads"][address] = (word["version"], word["value"])
        version, value = who["reads"][address]
        return version, who["writes"].get(address, value), NOTHING

    def write(self, c, address, value):
        who = self.in_phase(c, OPEN)
        if address >= self.size:
            raise Refused(6)
        if address not in who["reads"]:
            raise Refused(8)
        if who["reads"][address][0] == LAST_VERSION:
            raise Refused(9)
        if address not in who["writes"] and len(who["writes"]) == MOST_WRITES:
            raise Refused(7)
        who["writes"][address] = value
        return 0, 0, NOTHING

    def abandon(self, c):
        who = self.in_phase(c, OPEN)
        who["phase"] = IDLE
        return 0, 0, ABORTED

    def places_needed(self, c, machine):
        """How many places the log would have taken or kept, were this transaction committed now."""
        who, log = self.coordinators[c], self.logs[c, machine]
        kept = 0
        if self.primary_addresses(who, machine):
            kept += 2  # LOCK, and COMMIT-PRIMARY or ABORT
        if self.backup_addresses(who, machine):
            kept += 1  # COMMIT-BACKUP
        if kept or self.is_untrimmed(c, machine):
            kept += 1  # TRUNCATE
        return len(log) + kept

    def commit(self, c):
        who = self.in_phase(c, OPEN)
        number = who["next"]
        if number > LAST_NUMBER:
            raise Refused(9)
        if any(self.places_needed(c, m) > self.plan["capacity"] for m in range(self.plan["machines"])):
            raise Refused(10)
        who["next"] = number + 1
        if who["writes"]:
            who["phase"] = LOCKING
        elif who["reads"]:
            who["phase"] = CHECKING
        else:
            who["phase"] = IDLE
            return number, 0, COMMITTED
        return number, 0, NOTHING

    # The commit, record by record

    def send(self, c):
        who = self.in_phase(c, LOCKING, BACKING, INSTALLING, ABORTING)
        phase, number = who["phase"], who["next"] - 1
        machines = self.backup_machines(who) if phase == BACKING else self.primary_machines(who)
        due = [m for m in machines if m not in who["sent"]]
        if not due:
            raise Refused(11)
        machine = due[0]
        kind = {LOCKING: LOCK, BACKING: COMMIT_BACKUP, INSTALLING: COMMIT_PRIMARY, ABORTING: ABORT}[phase]
        record = {"kind": kind, "number": number, "lines": []}
        if kind == LOCK:
            record["lines"] = self.lines(who, self.primary_addresses(who, machine))
        if kind == COMMIT_BACKUP:
            record["lines"] = self.lines(who, self.backup_addresses(who, machine))
        self.logs[c, machine].append(record)
        outcome = COMMITTED if phase == INSTALLING and not who["sent"] else NOTHING
        who["sent"].add(machine)
        if len(due) == 1 and phase == BACKING:
            who.update(phase=INSTALLING, sent=set())
        if len(due) == 1 and phase in (INSTALLING, ABORTING):
            who["phase"] = IDLE
        return machine, kind, outcome

    def take(self, c, machine):
        who = self.in_phase(c, LOCKING)
        if not self.queues[c, machine]:
            raise Refused(11)
        number, yes = self.queues[c, machine].pop(0)
        assert number == who["next"] - 1
        who["replies"][machine] = yes
        outcome = NOTHING
        if len(who["replies"]) == len(self.primary_machines(who)):
            who["sent"] = set()
            if not all(who["replies"].values()):
                who["phase"], outcome = ABORTING, ABORTED
            elif self.words_only_read(who):
                who["phase"] = CHECKING
            else:
                who["phase"] = BACKING
        return int(yes), 0, outcome

    def words_only_read(self, who):
        return [a for a in who["reads"] if a not in who["writes"]]

    def check(self, c):
        who = self.in_phase(c, CHECKING)
        words = self.words_only_read(who)
        address = words[who["checked"]]
        word = self.primaries[address]
        same = self.is_as_read(c, word, who["reads"][address][0])
        outcome = NOTHING
        if not same:
            who["phase"], outcome = (ABORTING if who["writes"] else IDLE), ABORTED
        else:
            who["checked"] += 1
            if who["checked"] == len(words):
                who["phase"] = BACKING if who["writes"] else IDLE
                outcome = NOTHING if who["writes"] else COMMITTED
        return address, int(same), outcome

    def is_as_read(self, c, word, version):
        """The word has still that version and nobody holds it, the asker included."""
        same, free = word["version"] == version, word["holder"] == 0
        if not same:
            self.remarks.append("another version")
        if not free:
            self.remarks.append("held by itself" if word["holder"] == c + 1 else "held by another")
        return same and free

    # What a machine does with a record

    def poll(self, c, machine):
        log, at = self.logs[c, machine], self.polled[c, machine]
        if at == len(log):
            raise Refused(11)
        record = log[at]
        self.polled[c, machine] = at + 1
        handled = {
            LOCK: self.poll_lock,
            COMMIT_BACKUP: lambda *_: 0,
            COMMIT_PRIMARY: self.poll_commit_primary,
            ABORT: self.poll_abort,
            TRUNCATE: self.poll_truncate,
        }
        count = handled[record["kind"]](c, machine, record)
        return record["kind"], count, NOTHING

    def poll_lock(self, c, machine, record):
        words = [(self.primaries[line["address"]], line) for line in record["lines"]]
        yes = all([self.is_as_read(c, word, line["version"]) for word, line in words])
        if yes:
            for word, _ in words:
                word["holder"] = c + 1
        self.queues[c, machine].append((record["number"], yes))
        return len(words) if yes else 0

    def lock_lines(self, c, machine, record):
        before = self.logs[c, machine][: self.polled[c, machine]]
        return [r for r in before if r["kind"] == LOCK and r["number"] == record["number"]][-1]["lines"]

    def poll_commit_primary(self, c, machine, record):
        lines = self.lock_lines(c, machine, record)
        for line in lines:
            assert line["version"] < LAST_VERSION
            self.primaries[line["address"]] = {"version": line["version"] + 1, "holder": 0, "value": line["value"]}
        return len(lines)

    def poll_abort(self, c, machine, record):
        words = [self.primaries[line["address"]] for line in self.lock_lines(c, machine, record)]
        held = [word for word in words if word["holder"] == c + 1]
        for word in held:
            word["holder"] = 0
        return len(held)

    def poll_truncate(self, c, machine, _record):
        log, end = self.logs[c, machine], self.polled[c, machine]
        count = 0
        for record in log[:end]:
            for line in record["lines"] if record["kind"] == COMMIT_BACKUP else []:
                backup = self.backups[self.home(line["address"])[1:].index(machine)]
                if line["version"] + 1 > backup[line["address"]]["version"]:
                    backup[line["address"]] = {"version": line["version"] + 1, "value": line["value"]}
                    count += 1
                else:
                    self.remarks.append("a newer version stands")
        del log[:end]
        self.polled[c, machine] = 0
        return count

    def is_untrimmed(self, c, machine):
        log = self.logs[c, machine]
        return bool(log) and log[-1]["kind"] != TRUNCATE

    def trim(self, c, machine):
        who = self.in_phase(c, IDLE, OPEN)
        if not self.is_untrimmed(c, machine):
            raise Refused(11)
        number = who["next"] - 1
        self.logs[c, machine].append({"kind": TRUNCATE, "number": number, "lines": []})
        return number, 0, NOTHING


# The step file


def number_of(some_bytes):
    return int.from_bytes(some_bytes, "big")


def cut_into_entries(data):
    """Each entry with its place. The faults of the frame come where the reading gets to them."""
    if len(data) > MOST_BYTES:
        raise Fault(12, MOST_BYTES, 1)
    if not data or data[0] != 1:
        raise Fault(13, 0, 1)
    place = 1
    while place < len(data):
        length = number_of(data[place : place + 2])
        entry = data[place + 2 : place + 2 + length]
        if len(data) < place + 2 or len(entry) < length:
            raise Fault(14, place, 1)
        yield place, entry
        place += 2 + length


def decode(place, entry):
    """The entry's name and its fields; a set-up's only field is its plan."""
    if not entry:
        raise Fault(16, place, 2)
    if entry[0] >= len(NAMES):
        raise Fault(15, place, 2)
    name = NAMES[entry[0]]
    if name == "setup":
        if len(entry) < 4 or len(entry) != 21 + 3 * entry[3]:
            raise Fault(16, place, 2)
        plan = dict(zip(["machines", "coordinators", "regions", "capacity"], entry[1:5]))
        plan["start"], plan["first"] = number_of(entry[5:13]), number_of(entry[13:21])
        plan["homes"] = [tuple(entry[at : at + 3]) for at in range(21, len(entry), 3)]
        return name, [plan]
    if len(entry) != 1 + sum(FIELDS[name]):
        raise Fault(16, place, 2)
    given, at = [], 1
    for width in FIELDS[name]:
        given.append(number_of(entry[at : at + width]))
        at += width
    return name, given


def state_before(directory, name, given):
    """What the coverage tables ask about a call: the phase and the counts that it met."""
    if directory is None or given[0] >= directory.plan["coordinators"]:
        return {"phase": None}
    who = directory.coordinators[given[0]]
    known = len(given) > 1 and given[1] in who["reads"]
    return {
        "phase": who["phase"],
        "reads": len(who["reads"]),
        "writes": len(who["writes"]),
        "known": known,
        "written": known and given[1] in who["writes"],
        "version": who["reads"][given[1]][0] if known and name in ("read", "write") else None,
    }


def state_after(directory, name, given):
    if directory is None or given[0] >= directory.plan["coordinators"]:
        return {"phase": None}
    c = given[0]
    machines = range(directory.plan["machines"])
    return {
        "phase": directory.coordinators[c]["phase"],
        "longest": max(len(directory.logs[c, m]) for m in machines),
        "needed": max(directory.places_needed(c, m) for m in machines) if name == "commit" else 0,
    }


def play(data):
    """The lines that the program must print, and an event for each: what was asked, met, answered and left."""
    lines, events, directory = [], [], None
    try:
        for count, (place, entry) in enumerate(cut_into_entries(data)):
            name, given = decode(place, entry)
            if (name == "setup") != (count == 0):
                raise Fault(17, place, 2)
            event = {"name": name, "given": given}
            if name == "setup":
                try:
                    directory = Directory(given[0])
                except Refused as refused:
                    events.append(event | {"refusal": refused.args[0]})
                    raise Fault(refused.args[0], place, 3) from None
                answer, event["refusal"] = (directory.size, 0, 0), 0
            else:
                event |= {"plan": directory.plan, "before": state_before(directory, name, given)}
                try:
                    answer, event["refusal"] = directory.call(name, *given), 0
                except Refused as refused:
                    answer, event["refusal"] = (0, 0, 0), refused.args[0]
                event["after"] = state_after(directory, name, given)
                event["remarks"] = directory.remarks
            event["answer"] = answer
            events.append(event)
            lines.append(" ".join(map(str, [count, name, event["refusal"], *answer])))
    except Fault as fault:
        lines.append("fault " + " ".join(map(str, fault.args)))
        events.append({"name": "fault", "cause": fault.args[0], "place": fault.args[1], "layer": fault.args[2]})
    return lines, events


def text(lines):
    return "".join(line + "\n" for line in lines)


def compare(folder):
    differ, count = 0, 0
    for name in sorted(os.listdir(folder)):
        if not name.endswith(".steps"):
            continue
        path = os.path.join(folder, name)
        with open(path, "rb") as it:
            ours = text(play(it.read())[0])
        with open(path.removesuffix(".steps") + ".lines", encoding="utf-8") as it:
            theirs = it.read()
        count += 1
        if ours != theirs:
            differ += 1
            print(f"{name} differs")
    print(f"{count} files, {differ} differ")
    return differ


def main(given):
    if len(given) == 2 and given[0] == "--compare":
        sys.exit(1 if compare(given[1]) else 0)
    for path in given:
        with open(path, "rb") as it:
            sys.stdout.write(text(play(it.read())[0]))


if __name__ == "__main__":
    main(sys.argv[1:])
