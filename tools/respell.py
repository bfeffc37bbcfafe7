#!/usr/bin/env python3
"""Respells this repository's own definitions and lemmas.

usage: python3 tools/respell.py        at the top of the repository, once, after the toolchain's own script has run

A definition, a field and a constructor are in snake case, a type, a relation and a fact in upper camel case,
and a test begins with `is` or `has` and has no mark of a question. A lemma joins
the names it speaks of by dashes; a definition's name stands in it as one of them. One name that is now a tactic's is changed.

Words of crates/ alone are changed: whole words of .antt and .rt files, no comment, no string. Names of functions, types and
fields of the code have no dash and are never touched.
"""

import os
import re
import sys

# Definitions, fields and constructors.
DEFINITIONS = {
    "abandon-call": "abandon_call",
    "abort-none": "abort_none",
    "address-last": "address_last",
    "address-past": "address_past",
    "after-abort": "after_abort",
    "after-backup": "after_backup",
    "after-checks": "after_checks",
    "after-failed": "after_failed",
    "after-install": "after_install",
    "awaited-of": "awaited_of",
    "back-up": "back_up",
    "back-up-lines": "back_up_lines",
    "back-up-records": "back_up_records",
    "backup-lines": "backup_lines",
    "backup-machines": "backup_machines",
    "backup-part": "backup_part",
    "bad-call": "bad_call",
    "both-locked": "both_locked",
    "capacity-least": "capacity_least",
    "capacity-low": "capacity_low",
    "cells-words": "cells_words",
    "check-call": "check_call",
    "check-in": "check_in",
    "commit-call": "commit_call",
    "commit-one": "commit_one",
    "coordinator-of": "coordinator_of",
    "coordinators-of": "coordinators_of",
    "cross-check": "cross_check",
    "cross-version": "cross_version",
    "due-from": "due_from",
    "due-now": "due_now",
    "due-to": "due_to",
    "eight-at": "eight_at",
    "eight-bytes": "eight_bytes",
    "eight-quotients": "eight_quotients",
    "else-refuse": "else_refuse",
    "empty-log": "empty_log",
    "empty-ring": "empty_ring",
    "encoded-call": "encoded_call",
    "encoded-plan": "encoded_plan",
    "entry-numbers": "entry_numbers",
    "first-outcome": "first_outcome",
    "first-phase": "first_phase",
    "fitting-backup": "fitting_backup",
    "five-logs": "five_logs",
    "five-queues": "five_queues",
    "frame-numbers": "frame_numbers",
    "free-at": "free_at",
    "free-lines": "free_lines",
    "freed-lines": "freed_lines",
    "gone-on": "gone_on",
    "held-as": "held_as",
    "held-lines": "held_lines",
    "here-ring": "here_ring",
    "holds-n": "holds_n",
    "home-bytes": "home_bytes",
    "homes-of": "homes_of",
    "in-phase": "in_phase",
    "install-lines": "install_lines",
    "install-one": "install_one",
    "kind-due": "kind_due",
    "last-answer": "last_answer",
    "last-given": "last_given",
    "last-passed": "last_passed",
    "leaves-effect": "leaves_effect",
    "local-call": "local_call",
    "lock-all": "lock_all",
    "lock-lines": "lock_lines",
    "lock-one": "lock_one",
    "lockable-lines": "lockable_lines",
    "locked-lines": "locked_lines",
    "locks-due": "locks_due",
    "log-at": "log_at",
    "log-of": "log_of",
    "log-ring": "log_ring",
    "logs-of": "logs_of",
    "machine-list": "machine_list",
    "machines-due": "machines_due",
    "n-entries": "n_entries",
    "new-coordinator": "new_coordinator",
    "newer-first": "newer_first",
    "no-ring": "no_ring",
    "none-refused": "none_refused",
    "notes-at": "notes_at",
    "older-none": "older_none",
    "on-backups": "on_backups",
    "on-their-way": "on_their_way",
    "one-commit": "one_commit",
    "one-denied": "one_denied",
    "one-if": "one_if",
    "open-call": "open_call",
    "outcome-by": "outcome_by",
    "outcome-number": "outcome_number",
    "own-holder": "own_holder",
    "own-left": "own_left",
    "own-lines": "own_lines",
    "packed-words": "packed_words",
    "pass-over": "pass_over",
    "passed-log": "passed_log",
    "passed-own": "passed_own",
    "phase-by": "phase_by",
    "phase-of": "phase_of",
    "plan-A": "plan_A",
    "plan-of": "plan_of",
    "plan-with": "plan_with",
    "poll-call": "poll_call",
    "poll-lock": "poll_lock",
    "poll-next": "poll_next",
    "poll-record": "poll_record",
    "polled-over": "polled_over",
    "primary-lines": "primary_lines",
    "primary-machines": "primary_machines",
    "primary-word": "primary_word",
    "put-line": "put_line",
    "put-to": "put_to",
    "queue-at": "queue_at",
    "queue-of": "queue_of",
    "queue-ring": "queue_ring",
    "queues-of": "queues_of",
    "read-call": "read_call",
    "reads-apart": "reads_apart",
    "reads-few": "reads_few",
    "record-for": "record_for",
    "refusal-number": "refusal_number",
    "refused-unchanged": "refused_unchanged",
    "regions-byte": "regions_byte",
    "regions-in": "regions_in",
    "replies-awaited": "replies_awaited",
    "roomy-at": "roomy_at",
    "run-from": "run_from",
    "run-numbers": "run_numbers",
    "same-there": "same_there",
    "send-call": "send_call",
    "send-in": "send_in",
    "served-all": "served_all",
    "set-up": "set_up",
    "setup-answer": "setup_answer",
    "setup-row": "setup_row",
    "start-words": "start_words",
    "stays-sound": "stays_sound",
    "step-at": "step_at",
    "step-behind-checks": "step_behind_checks",
    "steps-position": "steps_position",
    "still-held": "still_held",
    "take-call": "take_call",
    "take-reply": "take_reply",
    "to-reply": "to_reply",
    "trim-backup": "trim_backup",
    "trim-call": "trim_call",
    "try-call": "try_call",
    "unwritten-from": "unwritten_from",
    "version-before": "version_before",
    "version-fits": "version_fits",
    "version-last": "version_last",
    "with-backups": "with_backups",
    "with-entry": "with_entry",
    "with-length": "with_length",
    "with-local": "with_local",
    "with-log": "with_log",
    "with-next": "with_next",
    "with-one-more": "with_one_more",
    "with-one-polled": "with_one_polled",
    "with-own": "with_own",
    "with-phase": "with_phase",
    "with-places": "with_places",
    "with-primaries": "with_primaries",
    "with-queue": "with_queue",
    "with-queues": "with_queues",
    "with-record": "with_record",
    "with-reply": "with_reply",
    "with-slots": "with_slots",
    "with-trim": "with_trim",
    "with-words": "with_words",
    "with-work": "with_work",
    "with-writes": "with_writes",
    "without-front": "without_front",
    "words-after": "words_after",
    "words-after-all": "words_after_all",
    "write-call": "write_call",
    "writes-few": "writes_few",
    "writes-fit": "writes_fit",
    "writes-of": "writes_of",
    "writes-read": "writes_read",
    "writes-record": "writes_record",
}

# Types, relations and facts.
TYPES = {
    "After-check": "AfterCheck",
    "After-reply": "AfterReply",
    "All-logged": "AllLogged",
    "As-sent": "AsSent",
    "Backed-up": "BackedUp",
    "Backs-up": "BacksUp",
    "Decodes-back": "DecodesBack",
    "Encodes-back": "EncodesBack",
    "Fits-tables": "FitsTables",
    "Handles-lock": "HandlesLock",
    "Hands-out": "HandsOut",
    "Home-there": "HomeThere",
    "In-eight-regions": "InEightRegions",
    "Keeps-homes": "KeepsHomes",
    "Kept-by-calls": "KeptByCalls",
    "Left-alone": "LeftAlone",
    "Next-is": "NextIs",
    "Next-unwritten": "NextUnwritten",
    "Of-plan": "OfPlan",
    "Proper-backups": "ProperBackups",
    "Proper-words": "ProperWords",
    "Reads-back": "ReadsBack",
    "Rest-stays": "RestStays",
    "Room-in": "RoomIn",
    "Sets-up": "SetsUp",
    "Slot-of": "SlotOf",
    "So-far": "SoFar",
    "Sound-log": "SoundLog",
    "Sound-tables": "SoundTables",
    "Stands-for": "StandsFor",
    "Was-read": "WasRead",
}

# Lemmas whose names contain one of these definitions.
LEMMAS = {
    "back-up-proper": "back_up-proper",
    "backup-lines-of": "backup_lines-of",
    "empty-log-of": "empty_log-of",
    "is-set-up": "is-set_up",
    "length-home-bytes": "length-home_bytes",
    "length-lock-lines": "length-lock_lines",
    "not-set-up": "not-set_up",
    "outcome-by-counts": "outcome_by-counts",
    "own-lines-fit": "own_lines-fit",
    "phase-by-counts": "phase_by-counts",
    "poll-lock-does": "poll_lock-does",
    "run-from-more": "run_from-more",
    "set-up-back": "set_up-back",
    "size-back-up": "size-back_up",
    "to-reply-first": "to_reply-first",
    "to-reply-snoc": "to_reply-snoc",
    "words-after-more": "words_after-more",
}

# Tests, that is functions to a Bool.
TESTS = {
    "all?": "all_by",
    "any?": "any_by",
    "at-backup?": "is_at_backup",
    "at-primary?": "is_at_primary",
    "backs?": "is_backup",
    "checking?": "is_checking",
    "current?": "is_current",
    "due?": "is_due",
    "empty?": "is_empty",
    "fine-home?": "is_fine_home",
    "fine-sizes?": "has_fine_sizes",
    "fine?": "is_fine",
    "first?": "is_first_backup",
    "fit-backup?": "is_fit_backup",
    "fit?": "is_fit",
    "fits?": "is_fitting",
    "has-picked?": "has_picked",
    "idle?": "is_idle",
    "in-order?": "is_in_order",
    "is?": "kind_eq",
    "locking?": "is_locking",
    "locks?": "is_lock_of",
    "member?": "is_member",
    "memories-fit?": "has_fitting_memories",
    "newer?": "is_newer",
    "opened?": "is_opened",
    "picks?": "is_picked",
    "room?": "is_roomy",
    "sending?": "is_sending",
    "some?": "some_by",
    "untrimmed?": "is_untrimmed",
    "whole?": "is_whole",
    "within?": "is_within",
}

# `first_of` is a tactic. In one file a lemma had this name.
TAKEN = "first_machine"
TAKEN_BY_A_LEMMA = {os.path.join("crates", "handling", "proofs", "Truncating.antt"): "first-holds"}

NAMES = DEFINITIONS | TYPES | LEMMAS | TESTS
INSIDE = r"[A-Za-z0-9_'?\-]"
WORD = re.compile(f"(?<!{INSIDE})({'|'.join(sorted(map(re.escape, NAMES), key=len, reverse=True))})(?!{INSIDE})")
TACTIC = re.compile(r"(?<!Prim\.)(?<![A-Za-z0-9_'\-.])first_of(?!\s*\()(?![A-Za-z0-9_'\-])")
COMMENT = {".antt": re.compile(r"--\s.*$"), ".rt": re.compile(r'//.*$|"(?:[^"\\]|\\.)*"')}


def respelled(text, taken):
    text = WORD.sub(lambda m: NAMES[m.group(1)], text)
    return TACTIC.sub(taken, text)


def turned(line, comment, taken):
    out, at = "", 0
    for m in comment.finditer(line):
        out += respelled(line[at : m.start()], taken) + m.group(0)
        at = m.end()
    return out + respelled(line[at:], taken)


def main():
    if not os.path.isdir("crates"):
        sys.exit("run it at the top of the repository")
    changed = 0
    for folder, folders, files in os.walk("crates"):
        folders[:] = sorted(f for f in folders if f != "out")
        for name in sorted(files):
            ending = os.path.splitext(name)[1]
            if ending not in COMMENT:
                continue
            path = os.path.join(folder, name)
            with open(path, encoding="utf-8", newline="") as it:
                old = it.read()
            taken = TAKEN_BY_A_LEMMA.get(path, TAKEN)
            new = "\n".join(turned(l, COMMENT[ending], taken) for l in old.split("\n"))
            if new != old:
                changed += 1
                with open(path, "w", encoding="utf-8", newline="") as it:
                    it.write(new)
    print(f"{changed} files respelled")


main()
