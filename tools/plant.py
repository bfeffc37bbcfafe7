#!/usr/bin/env python3
"""Plants bugs in the code, and says what the prover and the tests make of each.

usage: python3 tools/plant.py [--crate NAME] [--label WORD] [--together N] [--run] [EDIT or FOLDER ..]

An edit is a file CRATE/LABEL.edit in the format of a must-fail edit, or such an edit itself; with none named, those of
tools/planted are tried. Each is applied alone to a copy of the checkout with all that was built, and that crate is checked.
So check all crates first.
  refused   a contract, or what a call needs, is not proved; behind it the first place that the prover names
  answer    refused, and the first place is a proof by hand: look whether the fact is wrong or only the proof's words
  unfit     only proofs that name what the edit took away fail, which says nothing of the contract
  limit     the prover met a limit of its own, and gave no verdict
  bad       the edit cannot be applied, or does not compile
  survived  the crate is proved; then its tests and the programs above it are run
--run runs these for the refused ones, too. --together N first checks up to N edits of a crate at once, no two in one function,
and takes as refused those in whose function the prover names a place. --crate and --label, which may stand more than once,
choose among the edits.
"""

import argparse
import collections
import os
import re
import subprocess
import tempfile

ROOT = os.path.dirname(os.path.dirname(os.path.abspath(__file__)))
KINDS = ["refused", "answer", "unfit", "limit", "bad", "survived"]
LOST = re.compile(r"(note: )?(\./)?proofs/.*(has no field|is not in scope|has no `|was not admitted)")
UNREAD = re.compile(r"is not in scope|has no field|is no name|operand is missing|expected the end|cannot continue")
LIMIT = re.compile(r"antt ran out of|outgrew the memory limit|stopped at the step limit")


def held(path):
    if not os.path.isfile(path):
        return b""
    with open(path, "rb") as file:
        return file.read()


def rt(folder, *words, given=b""):
    done = subprocess.run(["rt", *words], cwd=folder, input=given, stdout=subprocess.PIPE, stderr=subprocess.PIPE)
    return done.returncode, done.stdout.decode(errors="replace"), done.stderr.decode(errors="replace")


def crate_of(edit):
    return os.path.basename(os.path.dirname(edit).removesuffix("/must-fail"))


def programs(name):
    """The programs that stand on a crate, by crates.txt."""
    on, found = {name}, []
    for line in held(f"{ROOT}/crates.txt").decode().split("\n"):
        crate, _, below = line.partition(":")
        if crate == name or on & set(below.split()):
            on.add(crate)
            if os.path.isfile(f"{ROOT}/crates/{crate}/src/main.rt"):
                found.append(crate)
    return found


def function(text):
    """The name of the last function that begins in a text."""
    return ([""] + re.findall(r"\bfn (\w+)", text))[-1]


def applied(edit, folder, texts=None):
    """The texts of the files that an edit changes, beside those given, and its functions; or why it cannot be applied."""
    texts, path, old, places = dict(texts or {}), None, None, set()
    for line in held(edit).decode().split("\n"):
        if line.startswith("file: "):
            path = line[len("file: ") :].strip()
            texts.setdefault(path, held(f"{folder}/{path}").decode())
        elif line.startswith("old: "):
            old = line[len("old: ") :]
        elif line.startswith("new:"):
            before, *behind = texts[path].split(old)
            if len(behind) != 1:
                return None, f"an old text stands {len(behind)} times in {path}"
            places.add((path, function(before + old)))
            texts[path] = before + line[len("new:") :].removeprefix(" ") + behind[0]
    return texts, places


def checked(folder, texts):
    """What a check of the crate with these texts says."""
    for path, text in texts.items():
        with open(f"{folder}/{path}", "w", encoding="utf-8") as file:
            file.write(text)
    status, out, err = rt(folder, "check")
    return status, (err + out).split("\n")


def put_back(folder, texts):
    for path in texts:
        subprocess.run(["cp", "-p", f"{ROOT}/crates/{os.path.basename(folder)}/{path}", f"{folder}/{path}"], check=True)


def verdict(status, lines, changed):
    """What that comes to, and the first place that is named."""
    wrong = [line for line in lines if re.match(r"note: \S+:\d+:\d+: |\S+:\d+:\d+: error", line)]
    for line in wrong:
        at = re.match(r"(?:\./)?(\S+?):\d+:\d+: error: (?:(`[^`]*`): )?(.*)", line)
        if at and (at[1] in changed or at[1].startswith(("src/", "specs/"))):
            if not at[2] or UNREAD.search(re.sub(r"`[^`]*`", "", at[3])):
                return "bad", line
    if status == 0:
        return "survived", ""
    if status == 1 and any(line.startswith("logic=not-proved") for line in lines):
        first = next((line for line in wrong if not LOST.match(line)), "")
        if wrong and not first:
            return "unfit", wrong[0]
        return ("answer" if re.match(r"(note: )?(\./)?proofs/", first) else "refused"), first
    limit = next((line for line in lines if LIMIT.search(line)), "")
    if status == 3 and limit:
        return "limit", limit
    return "bad", next((line for line in lines if "error" in line), lines[0])


def failures(copy, crate):
    """Which of the crate's tests and of the programs above it fail."""
    failed, count = [], 0
    status, out, err = rt(f"{copy}/{crate}", "try", "--test")
    if "no #[test] function" not in out + err:
        count += 1
        if status:
            failed.append("its tests")
    for program in programs(crate):
        folder = f"{copy}/{program}"
        data = sorted(os.listdir(f"{folder}/data")) if os.path.isdir(f"{folder}/data") else []
        words = [word for name in data for word in ("--data", f"{name}=data/{name}")]
        _, out, _ = rt(folder, "try", *words, given=held(f"{folder}/stdin"))
        count += 1
        if out != held(f"{folder}/stdout").decode():
            failed.append(program)
    return f"{len(failed)} of {count} runs fail: {', '.join(failed)}" if failed else f"none of {count} runs fails"


def at_once(edits, most, copy):
    """Those that are refused beside others of their crate, each with the place that is named in its function."""
    found, left = {}, list(edits)
    while left:
        folder, texts, owner, tried = f"{copy}/{crate_of(left[0])}", {}, {}, []
        for edit in [edit for edit in left if crate_of(edit) == crate_of(left[0])]:
            more, places = applied(edit, folder, texts)
            if more and len(tried) < most and all(name for _, name in places) and not places & set(owner):
                texts, tried = more, [*tried, edit]
                owner.update((place, edit) for place in places)
        left = [edit for edit in left if edit not in (tried or left[:1])]
        if len(tried) > 1:
            status, lines = checked(folder, texts)
            for line in lines if verdict(status, lines, texts)[0] in ("refused", "answer", "unfit") else []:
                at = re.match(r"note: (\S+?):(\d+):\d+: ", line)
                above = "\n".join(texts.get(at[1], "").split("\n")[: int(at[2])]) if at else ""
                if at and (at[1], function(above)) in owner:
                    found.setdefault(owner[at[1], function(above)], line)
            put_back(folder, texts)
    return found


def plant(edit, copy, always):
    """Tries one edit alone."""
    crate = crate_of(edit)
    texts, why = applied(edit, f"{copy}/{crate}")
    if texts is None:
        return "bad", why
    kind, place = verdict(*checked(f"{copy}/{crate}", texts), texts)
    if kind == "survived" or always and kind != "bad":
        place = "; ".join(part for part in (place[:120], failures(copy, crate)) if part)
    put_back(f"{copy}/{crate}", texts)
    return kind, place


def wanted(options):
    """The edits that are asked for, in order."""
    edits = []
    for name in options.edits or [f"{ROOT}/tools/planted"]:
        edits += [f"{at}/{file}" for at, _, files in os.walk(name) for file in files if file.endswith(".edit")] or [name]
    edits = sorted(os.path.abspath(edit) for edit in edits)
    edits = [edit for edit in edits if crate_of(edit) in options.crate or not options.crate]
    return [edit for edit in edits if not options.label or any(word in os.path.basename(edit) for word in options.label)]


def main():
    parser = argparse.ArgumentParser(description=__doc__, formatter_class=argparse.RawDescriptionHelpFormatter)
    parser.add_argument("--crate", action="append", default=[])
    parser.add_argument("--label", action="append", default=[])
    parser.add_argument("--together", type=int, default=1)
    parser.add_argument("--run", action="store_true")
    parser.add_argument("edits", nargs="*")
    options = parser.parse_args()
    edits, table = wanted(options), collections.Counter()
    with tempfile.TemporaryDirectory(prefix="plant-") as room:
        subprocess.run(["cp", "-a", "--reflink=auto", f"{ROOT}/crates", f"{ROOT}/crates.txt", room], check=True)
        found = at_once(edits, options.together, f"{room}/crates") if options.together > 1 else {}
        for edit in edits:
            kind, place = ("refused", found[edit]) if edit in found else plant(edit, f"{room}/crates", options.run)
            table[crate_of(edit), kind] += 1
            print(f"{crate_of(edit)}/{os.path.basename(edit)[:-5]}: {kind}{': ' if place else ''}{place[:220]}", flush=True)
    print(f"{'crate':12}" + "".join(f"{kind:>10}" for kind in [*KINDS, "all"]))
    for crate in [*sorted({crate for crate, _ in table}), ""]:
        row = [sum(n for (c, k), n in table.items() if k == kind and crate in (c, "")) for kind in KINDS]
        print(f"{crate or 'all':12}" + "".join(f"{n:>10}" for n in [*row, sum(row)]))


if __name__ == "__main__":
    main()
