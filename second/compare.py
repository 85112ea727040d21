"""Compares what a program prints with listing.py, on the samples and on generated files.

`python3 second/compare.py [--from SEED] [--count N] [PROGRAM]`, where PROGRAM is crates/lesson/out/lesson of this repository
unless told otherwise. Each sample is compared with its stored listing as well. The program's status has to be 0.

At the first difference the sample or the seed is printed with the line and what each has there, and the status is 1.
"""

import argparse
import subprocess
import sys
from itertools import zip_longest
from pathlib import Path

from generate import steps_file
from listing import listing

ROOT = Path(__file__).resolve().parent.parent
PATIENCE = 60  # seconds for one file


class Different(Exception):
    """The program does not do for a file what it should."""


def run(program: Path, data: bytes) -> bytes:
    """What the program prints for the file."""
    try:
        done = subprocess.run([program], input=data, stdout=subprocess.PIPE, timeout=PATIENCE)
    except subprocess.TimeoutExpired:
        raise Different(f"{program} has not ended after {PATIENCE} seconds") from None
    if done.returncode != 0:
        raise Different(f"{program} ends with status {done.returncode}")
    return done.stdout


def compare(name: str, ours: bytes, other_name: str, other: bytes) -> None:
    if ours == other:
        return
    pairs = zip_longest(ours.splitlines(keepends=True), other.splitlines(keepends=True))
    for number, (our_line, other_line) in enumerate(pairs, 1):
        if our_line != other_line:
            width = max(len(name), len(other_name))
            shown = [f"  {who:{width}}  {show(line)}" for who, line in [(name, our_line), (other_name, other_line)]]
            raise Different("\n".join([f"line {number}", *shown]))


def show(line: bytes | None) -> str:
    return "(no line)" if line is None else repr(line)[1:]


def compare_sample(program: Path, steps: Path) -> None:
    data = steps.read_bytes()
    ours = listing(data)
    compare("listing.py", ours, "stored", steps.with_suffix(".listing").read_bytes())
    compare("listing.py", ours, program.name, run(program, data))


def compare_generated(program: Path, seed: int) -> None:
    data = steps_file(seed)
    compare("listing.py", listing(data), program.name, run(program, data))


def first_difference(program: Path, samples: list[Path], seeds: range) -> str | None:
    what = ""
    try:
        for steps in samples:
            what = f"sample {steps.name}"
            compare_sample(program, steps)
        for seed in seeds:
            what = f"seed {seed}"
            compare_generated(program, seed)
    except Different as difference:
        return f"{what}: {difference}"
    return None


def main() -> None:
    parser = argparse.ArgumentParser(description="Compares a program with listing.py on samples and generated files.")
    parser.add_argument("--from", dest="first", type=int, default=0, metavar="SEED", help="the first seed")
    parser.add_argument("--count", type=int, default=1_500, metavar="N", help="how many generated files")
    parser.add_argument("program", type=Path, nargs="?", default=ROOT / "crates/lesson/out/lesson", metavar="PROGRAM")
    told = parser.parse_args()
    program = told.program.resolve()
    if not program.is_file():
        sys.exit(f"there is no program {program}")
    samples = sorted((ROOT / "samples").glob("*.steps"))
    seeds = range(told.first, told.first + told.count)
    difference = first_difference(program, samples, seeds)
    if difference is not None:
        print(difference)
        sys.exit(1)
    print(f"{len(samples)} samples and {told.count} generated files agree")


if __name__ == "__main__":
    main()
