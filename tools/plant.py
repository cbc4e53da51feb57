#!/usr/bin/env python3
"""Plants bugs, one at a time, in copies of the repository, and tells whether the check refuses each.

    tools/plant.py [--jobs N] [--only WORD] CRATE [FILE ..]

FILE is a list of bugs (tools/bugs/CRATE.txt where none is given) or a must-fail edit. --jobs works on N copies at once; --only takes the
bugs whose name has the word.

A list has a paragraph for each bug: a line `bug: what it does`, then `file:`, `old:` and `new:` as in a must-fail edit, once or more (the
old text stands once in that file; \\n is the end of a line). For each bug a row is printed: the verdict, the seconds, the bug, and the
first error that is a goal.

    refused       the check refuses it, at a goal or in the compiler
    UNFIT         it only makes a file of answers unfit (a name there is gone): it shows nothing, and wants another text
    SURVIVED      it proves
    NOT PLANTED   the old text does not stand there once

The copy is checked by `rt check`, which takes over what the bug leaves alone; it is not the verdict, so a survivor is to be tried
again as a must-fail edit. The last line counts; the status is 1 unless each bug was refused.
"""
import argparse
import concurrent.futures
import pathlib
import queue
import re
import shutil
import subprocess
import sys
import tempfile
import time

ROOT = pathlib.Path(__file__).resolve().parent.parent


def bugs(path):
    text = pathlib.Path(path).read_text()
    if path.endswith(".edit"):
        text = f"bug: {pathlib.Path(path).stem.replace('_', ' ')}\n" + text
    for paragraph in re.split(r"\n\s*\n", text.strip()):
        bug, place = {}, {}
        for line in paragraph.splitlines():
            if line.startswith("#"):
                continue
            name, _, value = line.partition(": ")
            value = value.replace("\\n", "\n")
            if name == "bug":
                bug["bug"] = value
            elif name == "new":
                bug.setdefault("changes", []).append((place["file"], place["old"], value))
            else:
                place[name] = value
        if bug:
            yield bug


# What is told of a name that a file of answers speaks of and the changed function has no more, and of what hangs on that answer.
# A long message has "has no field" on the line after, so that the first one ends with the record.
UNFIT = re.compile(
    r"has no (field|`)|\(nearest: |can be named|is not in scope|not admitted|was rejected|not checked|: record `[^`]*`( \(nearest.*)?$"
)


def first_error(log):
    """The first error at a goal, or of the compiler; else the first function that is not proved. With it, whether it is a goal."""
    errors = [line for line in log.splitlines() if re.search(r"\berror(\[|:(?!:))", line)]
    goals = [line for line in errors if not UNFIT.search(line)]
    others = [line for line in log.splitlines() if re.search(r"it is not proved|^fn .*: no(t| ).*proved?", line)]
    for line in goals + errors + others:
        return re.sub(r"^.*?/crates/", "", line)[:220], bool(goals) or not errors
    return (log.strip().splitlines() or ["no output"])[-1][:220], False


def restore(texts):
    for path, text in texts.items():
        path.write_text(text)


def plant(copy, crate, bug):
    before = {}
    why = ""
    for file, old, new in bug["changes"]:
        path = copy / "crates" / crate / file
        text = path.read_text()
        before.setdefault(path, text)
        if text.count(old) != 1:
            why = f"the old text stands {text.count(old)} times in {file}"
        path.write_text(text.replace(old, new))
    if why:
        restore(before)
        return "NOT PLANTED", 0, why
    start = time.time()
    run = subprocess.run(["rt", "check"], cwd=copy / "crates" / crate, capture_output=True, text=True)
    seconds = time.time() - start
    restore(before)
    log = run.stdout + run.stderr
    if run.returncode == 0 and "logic=not-proved" not in log:
        return "SURVIVED", seconds, ""
    why, goal = first_error(log)
    return ("refused" if goal else "UNFIT"), seconds, why


def checked_copy(folder, crate):
    copy = pathlib.Path(folder) / "repo"
    shutil.copytree(ROOT, copy, ignore=shutil.ignore_patterns(".git"))
    ready = subprocess.run(["rt", "check"], cwd=copy / "crates" / crate, capture_output=True, text=True)
    if ready.returncode != 0:
        sys.exit(f"{crate} is not proved as it stands:\n{(ready.stdout + ready.stderr)[-2000:]}")
    return copy


def main():
    words = argparse.ArgumentParser()
    words.add_argument("--jobs", type=int, default=1)
    words.add_argument("--only", default="")
    words.add_argument("crate")
    words.add_argument("files", nargs="*")
    words = words.parse_args()
    files = words.files or [str(ROOT / "tools" / "bugs" / f"{words.crate}.txt")]
    wanted = [bug for name in files for bug in bugs(name) if words.only in bug["bug"]]
    with tempfile.TemporaryDirectory() as folder:
        copies = queue.Queue()
        first = checked_copy(pathlib.Path(folder) / "0", words.crate)
        copies.put(first)
        for number in range(1, min(words.jobs, len(wanted))):
            copy = pathlib.Path(folder) / str(number) / "repo"
            shutil.copytree(first, copy)
            copies.put(copy)

        def try_one(bug):
            copy = copies.get()
            row = plant(copy, words.crate, bug)
            copies.put(copy)
            return bug, row

        counts = {}
        with concurrent.futures.ThreadPoolExecutor(words.jobs) as pool:
            for bug, (verdict, seconds, why) in pool.map(try_one, wanted):
                counts[verdict] = counts.get(verdict, 0) + 1
                print(f"{verdict:11} {seconds:4.0f} s  {bug['bug']}\n                    {why}", flush=True)
    print(f"{words.crate}: {len(wanted)} planted, " + ", ".join(f"{count} {verdict}" for verdict, count in counts.items()))
    sys.exit(0 if counts.get("refused", 0) == len(wanted) else 1)


if __name__ == "__main__":
    main()
