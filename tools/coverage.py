"""What a set of step files shows: tables counted from the model's runs, and what is wanted of them."""

from collections import Counter

import model
from model import ABORTING, BACKING, CALLS, CHECKING, IDLE, INSTALLING, LOCKING, OPEN, PHASES

# The refusals that a step file can bring about. 1 and 2 are those of a set-up or of tables that do not fit: a call gets
# neither in a step file, since the playing ends where a set-up is refused, and the tables are the program's own.
REFUSALS = {
    "open": [3, 5],
    "read": [3, 5, 6, 7],
    "write": [3, 5, 6, 8, 9, 7],
    "abandon": [3, 5],
    "commit": [3, 5, 9, 10],
    "send": [3, 5, 11],
    "poll": [3, 4, 11],
    "take": [3, 4, 5, 11],
    "check": [3, 5],
    "trim": [3, 4, 5, 11],
}

ALLOWED = {
    "open": [IDLE],
    "read": [OPEN],
    "write": [OPEN],
    "abandon": [OPEN],
    "commit": [OPEN],
    "send": [LOCKING, BACKING, INSTALLING, ABORTING],
    "poll": PHASES,
    "take": [LOCKING],
    "check": [CHECKING],
    "trim": [IDLE, OPEN],
}

CHANGES = [
    (IDLE, "open", OPEN),
    (IDLE, "trim", IDLE),
    (OPEN, "read", OPEN),
    (OPEN, "write", OPEN),
    (OPEN, "trim", OPEN),
    (OPEN, "abandon", IDLE),
    (OPEN, "commit", LOCKING),
    (OPEN, "commit", CHECKING),
    (OPEN, "commit", IDLE),
    (LOCKING, "send", LOCKING),
    (LOCKING, "take", LOCKING),
    (LOCKING, "take", CHECKING),
    (LOCKING, "take", BACKING),
    (LOCKING, "take", ABORTING),
    (CHECKING, "check", CHECKING),
    (CHECKING, "check", BACKING),
    (CHECKING, "check", ABORTING),
    (CHECKING, "check", IDLE),
    (BACKING, "send", BACKING),
    (BACKING, "send", INSTALLING),
    (INSTALLING, "send", INSTALLING),
    (INSTALLING, "send", IDLE),
    (ABORTING, "send", ABORTING),
    (ABORTING, "send", IDLE),
] + [(phase, "poll", phase) for phase in PHASES]

OUTCOMES = [
    "abandon: aborted",
    "commit: committed, nothing read",
    "send: committed, the first COMMIT-PRIMARY",
    "take: aborted, some LOCK failed",
    "check: aborted, something written",
    "check: aborted, nothing written",
    "check: committed, nothing written",
]

KINDS = {1: "LOCK", 2: "COMMIT-BACKUP", 3: "COMMIT-PRIMARY", 4: "ABORT", 5: "TRUNCATE"}
POLLED = ["LOCK, none", "COMMIT-BACKUP, none", "ABORT, none", "TRUNCATE, none"] + [
    f"{KINDS[kind]}, {count}" for kind in [1, 3, 4, 5] for count in ["one", "two to four"]
]
POLLED.append("TRUNCATE, five or more")

DENIED = [
    "LOCK: another version",
    "LOCK: held by another",
    "check: another version",
    "check: held by another",
    "check: held by itself",
    "TRUNCATE: a newer version stands",
]

RANGES = [("machines", 3, 5), ("coordinators", 1, 4), ("regions", 1, 8), ("capacity", 4, 16), ("start", 0, 2**60 - 1)]
SET_UPS = [f"{name} {way}" for name, _, _ in RANGES for way in ["low", "high"] if (name, way) != ("start", "low")] + [
    "primary and first backup on one machine",
    "primary and second backup on one machine",
    "both backups on one machine",
    "a primary from M up",
    "a first backup from M up",
    "a second backup from M up",
]
ENDS = [f"{name} at its {way} end" for name, _, _ in RANGES for way in ["lower", "upper"]]

FAULTS = (
    ["12: too long", "13: empty", "13: another version byte", "14: a length byte missing", "14: content missing"]
    + ["15: unknown kind", "16: length 0", "16: set-up without its R byte"]
    + [f"16: {name} too short or too long" for name in model.NAMES]
    + ["17: first entry a call", "17: second set-up"]
)

LIMITS = [
    "the eighth word read",
    "a ninth word read: 7",
    "a word read again with eight read",
    "the fourth word written",
    "a fifth word written: 7",
    "a word written again with four written",
    "commit with K 4 just full",
    "commit with K 16 just full",
    "K 4, and 4 records in a log",
    "K 16, and 16 records in a log",
    "commit without room, one place too few: 10",
    "number 2^64 - 2 given",
    "number 2^64 - 1 given",
    "commit after number 2^64 - 1: 9",
    "TRUNCATE of number 2^64 - 1",
    "version 2^60 - 1 read",
    "version 2^60 - 1 written: 9",
    "version 2^60 - 2 written",
    "address 63 of 64 read",
    "address 64 of 64 read: 6",
    "address 63 of 64 written",
    "address 64 of 64 written: 6",
    "address 511 of 512 read",
    "address 512 of 512 read: 6",
    "address 511 of 512 written",
    "address 512 of 512 written: 6",
]


def wrong_values(plan):
    """What is wrong with a plan, each thing by itself."""
    for name, low, high in RANGES:
        if plan[name] < low:
            yield f"{name} low"
        if plan[name] > high:
            yield f"{name} high"
    for primary, first, second in plan["homes"]:
        if primary == first:
            yield SET_UPS[9]
        if primary == second:
            yield SET_UPS[10]
        if first == second:
            yield SET_UPS[11]
        for part, machine in [("primary", primary), ("first backup", first), ("second backup", second)]:
            if machine >= plan["machines"]:
                yield f"a {part} from M up"


def set_up_labels(event):
    (plan,) = event["given"]
    if event["refusal"]:
        wrong = set(wrong_values(plan))
        if plan["machines"] < 3:
            wrong = {label for label in wrong if "machines" in label}  # no three machines are there to name
        if len(wrong) == 1:
            yield "set-ups", wrong.pop()
    else:
        for name, low, high in RANGES:
            if plan[name] == low:
                yield "ends", f"{name} at its lower end"
            if plan[name] == high:
                yield "ends", f"{name} at its upper end"


def fault_labels(data, event):
    cause, place = event["cause"], event["place"]
    length, kind = model.number_of(data[place : place + 2]), data[place + 2 : place + 3]
    if cause == 12:
        way = "too long"
    elif cause == 13:
        way = "another version byte" if data else "empty"
    elif cause == 14:
        way = "a length byte missing" if len(data) < place + 2 else "content missing"
    elif cause == 15:
        way = "unknown kind"
    elif cause == 16 and length == 0:
        way = "length 0"
    elif cause == 16:
        name = model.NAMES[kind[0]]
        if name == "setup" and length < 4:
            way = "set-up without its R byte"
        else:
            way = f"{name} too short or too long"
    elif cause == 17:
        way = "second set-up" if kind == b"\x00" else "first entry a call"
    else:
        return
    yield "faults", f"{cause}: {way}"


def outcome_labels(event):
    name, outcome = event["name"], event["answer"][2]
    if outcome == 0:
        return
    what = {1: "committed", 2: "aborted"}[outcome]
    why = {"abandon": "", "commit": ", nothing read", "send": ", the first COMMIT-PRIMARY", "take": ", some LOCK failed"}
    if name == "check":
        why["check"] = ", something written" if event["before"]["writes"] else ", nothing written"
    yield "outcomes", f"{name}: {what}{why[name]}"


def poll_labels(event):
    kind, count, _ = event["answer"]
    many = "none" if count == 0 else "one" if count == 1 else "two to four" if count <= 4 else "five or more"
    yield "polled", f"{KINDS[kind]}, {many}"


def limit_labels(event):
    """The limits of what a transaction may read and write, by what the call met."""
    name, refusal, before, plan = event["name"], event["refusal"], event["before"], event["plan"]
    if name == "read" and refusal in (0, 7):
        if before["known"] and before["reads"] == 8:
            yield "a word read again with eight read"
        elif not before["known"] and before["reads"] >= 7:
            yield "a ninth word read: 7" if refusal else "the eighth word read"
    if name == "write" and refusal in (0, 7):
        if before["written"] and before["writes"] == 4:
            yield "a word written again with four written"
        elif not before["written"] and before["writes"] >= 3:
            yield "a fifth word written: 7" if refusal else "the fourth word written"
    if name == "write" and before.get("version") == model.LAST_VERSION and refusal == 9:
        yield "version 2^60 - 1 written: 9"
    if name == "write" and before.get("version") == model.LAST_VERSION - 1 and refusal == 0:
        yield "version 2^60 - 2 written"
    if name == "read" and refusal == 0 and event["answer"][0] == model.LAST_VERSION:
        yield "version 2^60 - 1 read"
    if name in ("read", "write") and refusal in (0, 6):
        size, address = 64 * plan["regions"], event["given"][1]
        if size in (64, 512) and address - size in (-1, 0):
            yield f"address {address} of {size} {'read' if name == 'read' else 'written'}" + (": 6" if refusal else "")


def room_labels(event):
    """The limits of logs and numbers."""
    name, refusal, capacity, after = event["name"], event["refusal"], event["plan"]["capacity"], event["after"]
    if name == "commit" and refusal == 0:
        if after["needed"] == capacity and capacity in (4, 16):
            yield f"commit with K {capacity} just full"
        if event["answer"][0] >= 2**64 - 2:
            yield f"number 2^64 - {2**64 - event['answer'][0]} given"
    if name == "commit" and refusal == 10 and after["needed"] == capacity + 1:
        yield "commit without room, one place too few: 10"
    if name == "commit" and refusal == 9:
        yield "commit after number 2^64 - 1: 9"
    if name == "trim" and refusal == 0 and event["answer"][0] == model.LAST_NUMBER:
        yield "TRUNCATE of number 2^64 - 1"
    if refusal == 0 and name in ("send", "trim") and after["longest"] == capacity and capacity in (4, 16):
        yield f"K {capacity}, and {capacity} records in a log"


def call_labels(event):
    name, refusal = event["name"], event["refusal"]
    yield "calls", (name, refusal)
    if refusal == 5:
        yield "wrong phases", (name, event["before"]["phase"])
    for limit in [*limit_labels(event), *room_labels(event)]:
        yield "limits", limit
    if refusal:
        return
    yield "changes", (event["before"]["phase"], name, event["after"]["phase"])
    yield from outcome_labels(event)
    if name == "poll":
        yield from poll_labels(event)
    if event["remarks"]:
        at = KINDS[event["answer"][0]] if name == "poll" else name
        for remark in set(event["remarks"]):
            yield "denied", f"{at}: {remark}"


def labels(data, event):
    if event["name"] == "fault":
        return fault_labels(data, event)
    if event["name"] == "setup":
        return set_up_labels(event)
    return call_labels(event)


WANTED = {
    "calls": [(call, refusal) for call in CALLS for refusal in [0, *REFUSALS[call]]],
    "wrong phases": [(call, phase) for call in CALLS for phase in PHASES if phase not in ALLOWED[call]],
    "changes": CHANGES,
    "outcomes": OUTCOMES,
    "polled": POLLED,
    "denied": DENIED,
    "limits": LIMITS,
    "set-ups": SET_UPS,
    "ends": ENDS,
    "faults": FAULTS,
}


def matrix(counts, wanted, rows, columns, corner):
    """A table with a row for each call; a place where nothing is wanted is a dash."""
    print(f"| {corner} | " + " | ".join(map(str, columns)) + " |")
    print("|---" * (len(columns) + 1) + "|")
    for row in rows:
        cells = [str(counts[row, column]) if (row, column) in wanted or counts[row, column] else "–" for column in columns]
        print(f"| {row} | " + " | ".join(cells) + " |")
    print()


def listing(counts, wanted, head):
    print(f"| {head} | times |")
    print("|---|---|")
    for label in wanted:
        shown = label if isinstance(label, str) else f"{label[0]}, {label[1]}, {label[2]}"
        print(f"| {shown} | {counts[label]} |")
    print()


def long_runs(plays):
    """What the long runs of four coordinators on five machines hold; answers what one of them lacks."""
    columns = ["entries", "committed", "aborted", "refused", "LOCKs failed", "checks failed: version", "holder"]
    columns += ["TRUNCATEs that put some", "none", "met a newer version"]
    print("| file | " + " | ".join(columns) + " |")
    print("|---" * (len(columns) + 1) + "|")
    total = Counter()
    for stem, _, events in plays:
        if not stem.startswith("four-on-five"):
            continue
        n = Counter(entries=len(events))
        for event in events[1:]:
            n["refused"] += event["refusal"] != 0
            n["committed"] += event["answer"][2] == 1
            n["aborted"] += event["answer"][2] == 2
            n["LOCKs failed"] += event["name"] == "poll" and event["answer"][:2] == (1, 0)
            n["checks failed: version"] += event["name"] == "check" and "another version" in event["remarks"]
            n["holder"] += event["name"] == "check" and any(r.startswith("held") for r in event["remarks"])
            n["TRUNCATEs that put some"] += event["name"] == "poll" and event["answer"][0] == 5 and event["answer"][1] > 0
            n["none"] += event["name"] == "poll" and event["answer"][:2] == (5, 0)
            n["met a newer version"] += "a newer version stands" in event["remarks"]
        print(f"| {stem} | " + " | ".join(str(n[column]) for column in columns) + " |")
        total += n
    print()
    return [f"four-on-five: {column}" for column in columns if not total[column]]


def show(plays):
    """Prints the tables, and answers what is wanted and was not seen."""
    counts = {table: Counter() for table in WANTED}
    for _, data, events in plays:
        for event in events:
            for table, label in labels(data, event):
                counts[table][label] += 1
    entries = sum(event["name"] != "fault" for _, _, events in plays for event in events)
    print(f"{len(plays)} files, {entries} entries\n")
    matrix(counts["calls"], WANTED["calls"], CALLS, [0, *range(3, 12)], "call and refusal")
    matrix(counts["wrong phases"], WANTED["wrong phases"], CALLS, PHASES, "refused by phase")
    listing(counts["changes"], CHANGES, "phase, call, phase after")
    listing(counts["outcomes"], OUTCOMES, "outcome")
    listing(counts["polled"], POLLED, "record polled, and words that it changed")
    listing(counts["denied"], DENIED, "a word is not as it was read")
    listing(counts["limits"], LIMITS, "limit")
    listing(counts["ends"], ENDS, "a set-up that passes")
    listing(counts["set-ups"], SET_UPS, "a set-up refused for this alone")
    listing(counts["faults"], FAULTS, "fault")
    missing = [f"{table}: {label}" for table, wanted in WANTED.items() for label in wanted if not counts[table][label]]
    missing += [f"changes, not foreseen: {change}" for change in counts["changes"] if change not in CHANGES]
    missing += [f"refusals, not foreseen: {pair}" for pair in counts["calls"] if pair not in WANTED["calls"]]
    missing += long_runs(plays)
    for what in missing:
        print(f"missing: {what}")
    print(f"{sum(map(len, WANTED.values()))} things wanted, {len(missing)} missing")
    return missing
