#!/usr/bin/env python3
"""Plants bugs in the code, one at a time, and tells what catches each.

    python3 tools/plant.py [--jobs N] [--again] [CRATE ...]

Each file tools/planted/CRATE.bugs lists bugs of one crate: blocks of four lines, an empty line between them.

    bug: take_moves_first_by_two
    file: src/rows.rt
    old: text that stands once in that file
    new: what stands there instead

A bug is applied to a copy of the repository under target/planted, and the crate is checked there. The answer is one of

    proof       the crate is no longer proved, since a fact fails
    unfit       it is no longer proved, but only since a proof file names what the edit took away: this says nothing
    tests       it is still proved, but a test of some crate fails
    comparison  tests pass too, but the listings differ from the stored ones or from the second program's
    not caught  nothing notices
    bad         the edit does not apply, or the code no longer builds, so it says nothing

and is added to target/planted/results.tsv. A bug that has an answer there is passed over, so a run that was stopped goes
on where it was; --again forgets the answers of the crates that are named. At most two bugs are tried at a time. This is no
part of the gate: it takes a check of a crate for each bug.
"""
from __future__ import annotations

import argparse
import queue
import re
import shutil
import subprocess
import sys
import threading
from dataclasses import dataclass
from pathlib import Path

ROOT = Path(__file__).resolve().parent.parent
WORK = ROOT / "target" / "planted"
RESULTS = WORK / "results.tsv"
LISTS = ROOT / "tools" / "planted"
KEYS = ("bug", "file", "old", "new")


@dataclass(frozen=True)
class Bug:
    crate: str
    name: str
    file: str
    old: str
    new: str

    @property
    def label(self) -> str:
        return f"{self.crate}/{self.name}"


def read_bugs(path: Path) -> list[Bug]:
    bugs = []
    for block in re.split(r"\n\s*\n", path.read_text().strip()):
        lines = [line for line in block.split("\n") if line and not line.startswith("#")]
        if not lines:
            continue
        fields = {}
        for line in lines:
            key, _, value = line.partition(": ")
            fields[key] = value
        if tuple(fields) != KEYS:
            sys.exit(f"{path}: a block has the lines {tuple(fields)}, not {KEYS}")
        bugs.append(Bug(path.stem, fields["bug"], fields["file"], fields["old"], fields["new"]))
    return bugs


def dependents() -> dict[str, set[str]]:
    """Of each crate, the crates that are built on it, directly or not."""
    deps = {}
    for line in (ROOT / "crates.txt").read_text().splitlines():
        if ":" in line and not line.startswith("#"):
            name, _, rest = line.partition(":")
            deps[name.split()[0]] = set(rest.split())
    # what no line names is a library of the toolchain
    deps = {crate: {other for other in below if other in deps} for crate, below in deps.items()}
    return {
        crate: {other for other in deps if crate == other or crate in reached(other, deps)}
        for crate in deps
    }


def reached(crate: str, deps: dict[str, set[str]]) -> set[str]:
    found: set[str] = set()
    waiting = list(deps[crate])
    while waiting:
        name = waiting.pop()
        if name not in found:
            found.add(name)
            waiting.extend(deps[name])
    return found


def run(copy: Path, *words: str) -> subprocess.CompletedProcess[str]:
    return subprocess.run(words, cwd=copy, text=True, stdin=subprocess.DEVNULL, stdout=subprocess.PIPE, stderr=subprocess.STDOUT)


# What an error says that is about names and no fact.
NAMES = re.compile(r"can be named from here|has no field|not in scope|was not checked|were not checked|not admitted")


def complaints(text: str) -> list[str]:
    lines = [line.replace("\t", " ") for line in text.splitlines()]
    return [line for line in lines if ": error" in line or "does not close" in line]


def first_error(text: str) -> str:
    return next((line[:300] for line in complaints(text)), "")


def refused(text: str) -> tuple[str, str]:
    """Whether a fact fails, and the first one that does."""
    facts = [line for line in complaints(text) if not NAMES.search(line)]
    return ("proof", facts[0][:300]) if facts else ("unfit", first_error(text))


def judge(copy: Path, bug: Bug, above: set[str]) -> tuple[str, str]:
    """What catches the bug that stands in the copy, and the first words about it."""
    checked = run(copy, "rt", "check", bug.crate)
    if checked.returncode != 0:
        if "logic=not-proved" in checked.stdout:
            return refused(checked.stdout)
        return "bad", first_error(checked.stdout)
    for name in sorted(name for name in above if name.endswith("_tests")):
        tested = run(copy, "rt", "test", name)
        if tested.returncode != 0:
            return "tests", first_error(tested.stdout)
    if "lesson" in above:
        built = run(copy, "rt", "run", "lesson")
        if built.returncode != 0:
            return "tests", first_error(built.stdout)
        compared = run(copy, "python3", "second/compare.py", "--count", "300")
        if compared.returncode != 0:
            return "comparison", compared.stdout.strip().replace("\n", " ")[:300]
    return "not caught", ""


def try_bug(copy: Path, bug: Bug, above: set[str]) -> tuple[str, str]:
    path = copy / "crates" / bug.crate / bug.file
    if not path.is_file():
        return "bad", f"no file {bug.file}"
    text = path.read_text()
    if text.count(bug.old) != 1:
        return "bad", f"the old text stands there {text.count(bug.old)} times"
    path.write_text(text.replace(bug.old, bug.new))
    try:
        return judge(copy, bug, above)
    finally:
        path.write_text(text)


def fresh_copy(number: int) -> Path:
    copy = WORK / f"copy{number}"
    shutil.rmtree(copy, ignore_errors=True)
    copy.mkdir(parents=True)
    for name in ("crates", "second", "samples"):
        shutil.copytree(ROOT / name, copy / name)
    shutil.copy(ROOT / "crates.txt", copy)
    return copy


def known() -> dict[str, str]:
    if not RESULTS.exists():
        return {}
    rows = (line.split("\t") for line in RESULTS.read_text().splitlines())
    return {row[0]: row[1] for row in rows}


def work_off(bugs: list[Bug], jobs: int) -> None:
    above = dependents()
    waiting: queue.Queue[Bug] = queue.Queue()
    for bug in bugs:
        waiting.put(bug)
    lock = threading.Lock()

    def worker(number: int) -> None:
        copy = fresh_copy(number)
        while True:
            try:
                bug = waiting.get_nowait()
            except queue.Empty:
                return
            outcome, words = try_bug(copy, bug, above[bug.crate])
            with lock, RESULTS.open("a") as out:
                out.write(f"{bug.label}\t{outcome}\t{words}\n")
                print(f"{bug.label}: {outcome}", flush=True)

    threads = [threading.Thread(target=worker, args=(number,)) for number in range(jobs)]
    for thread in threads:
        thread.start()
    for thread in threads:
        thread.join()


def main() -> None:
    parser = argparse.ArgumentParser(description=__doc__, formatter_class=argparse.RawDescriptionHelpFormatter)
    parser.add_argument("--jobs", type=int, choices=(1, 2), default=1)
    parser.add_argument("--again", action="store_true")
    parser.add_argument("crates", nargs="*")
    wanted = parser.parse_args()
    WORK.mkdir(parents=True, exist_ok=True)
    paths = sorted(LISTS.glob("*.bugs"))
    bugs = [bug for path in paths if not wanted.crates or path.stem in wanted.crates for bug in read_bugs(path)]
    labels = {bug.label for bug in bugs}
    if len(labels) < len(bugs):
        sys.exit("two bugs of one crate have one name")
    if wanted.again and RESULTS.exists():
        kept = [line for line in RESULTS.read_text().splitlines() if line.split("\t")[0] not in labels]
        RESULTS.write_text("".join(line + "\n" for line in kept))
    done = known()
    work_off([bug for bug in bugs if bug.label not in done], wanted.jobs)
    done = known()
    outcomes = [done[bug.label] for bug in bugs]
    print(f"{len(bugs)} bugs: " + ", ".join(f"{outcomes.count(word)} {word}" for word in ("proof", "tests", "comparison", "not caught", "unfit", "bad")))
    sys.exit(0 if all(word in ("proof", "tests", "comparison") for word in outcomes) else 1)


if __name__ == "__main__":
    main()
