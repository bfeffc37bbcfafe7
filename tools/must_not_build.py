#!/usr/bin/env python3
"""Tries the edits crates/NAME/must-not-build/*.edit: with each of them the compiler must refuse the crate.

usage: python3 tools/must_not_build.py        at the top of the repository

A must-fail edit is one that compiles and that the prover refuses. What is tried here does not compile, as a use of a value that was
moved. An edit has the lines 'error: NAME' and 'file: src/FILE.rt' and then pairs of lines 'old: TEXT' and 'new: TEXT'; each old TEXT
stands in that file exactly once. The crates are copied, edited and compiled unproved, and the first error must be of that name.
Without an edit the copy must compile and run. It prints a line for each edit, and ends with status 1 where one is not refused so.
"""

import glob
import os
import re
import shutil
import subprocess
import sys
import tempfile

PARTS = ("src", "specs", "proofs")


def read(path):
    with open(path, encoding="utf-8") as file:
        return file.read()


def write(path, text):
    with open(path, "w", encoding="utf-8") as file:
        file.write(text)


def copied(room):
    shutil.copy("crates.txt", room)
    for crate in glob.glob("crates/*"):
        for part in PARTS:
            if os.path.isdir(f"{crate}/{part}"):
                shutil.copytree(f"{crate}/{part}", f"{room}/{crate}/{part}")


def fields(edit):
    return [line.split(": ", 1) for line in read(edit).splitlines()]


def edited(text, pairs):
    for (old_word, old), (new_word, new) in zip(pairs[::2], pairs[1::2], strict=True):
        if (old_word, new_word) != ("old", "new") or text.count(old) != 1:
            raise ValueError(f"this stands in the file {text.count(old)} times, and not once: {old}")
        text = text.replace(old, new)
    return text


def first_error(crate):
    """Returns the name of the first error of an unproved build and run, or None where there is none."""
    ran = subprocess.run(["rt", "try"], cwd=crate, stdin=subprocess.DEVNULL, stdout=subprocess.PIPE, stderr=subprocess.STDOUT, text=True)
    errors = re.findall(r"^\S+: error\[([\w-]+)\]", ran.stdout, re.MULTILINE)
    if errors or ran.returncode == 0:
        return errors[0] if errors else None
    return f"status {ran.returncode}: {ran.stdout[-300:]}"


def refused_as_named(room, edit):
    crate = edit.split("/")[1]
    (_, name), (_, file), *pairs = fields(edit)
    path = f"{room}/crates/{crate}/{file}"
    text = read(path)
    write(path, edited(text, pairs))
    found = first_error(f"{room}/crates/{crate}")
    write(path, text)
    print(f"must-not-build {crate}/{os.path.basename(edit)}: {found or 'NOT REFUSED'}{'' if found == name else f', and not {name}'}", flush=True)
    return found == name


def main():
    edits = sorted(glob.glob("crates/*/must-not-build/*.edit"))
    with tempfile.TemporaryDirectory() as room:
        copied(room)
        for crate in sorted({edit.split("/")[1] for edit in edits}):
            found = first_error(f"{room}/crates/{crate}")
            if found:
                print(f"must-not-build {crate}: without an edit: {found}")
                return 1
        failed = [edit for edit in edits if not refused_as_named(room, edit)]
    return 1 if failed or not edits else 0


if __name__ == "__main__":
    sys.exit(main())
