"""How long the program and listing.py take for a file of 3,000 records: `python3 second/bench.py [PROGRAM]`.

Only a report; nothing fails for being slow. The start of a process is in neither time. For the program it is the best
of many runs on the whole file less the best of many runs on the same file's header alone, so that what remains is
reading, running and printing 3,000 records (to /dev/null). For listing.py it is the best of several calls of
listing(data), which reads and prints nothing.
"""

import random
import subprocess
import sys
import tempfile
from collections.abc import Callable
from pathlib import Path
from time import perf_counter

from generate import HEADER_SIZE, LARGEST, MOST_RECORDS, some_lesson
from listing import listing

ROOT = Path(__file__).resolve().parent.parent
PROGRAM_RUNS = 300
LISTING_RUNS = 10


def seconds(work: Callable[[], object]) -> float:
    start = perf_counter()
    work()
    return perf_counter() - start


def run(program: Path, steps: Path) -> None:
    with steps.open("rb") as file:
        subprocess.run([program], stdin=file, stdout=subprocess.DEVNULL, check=True)


def program_time(program: Path, data: bytes) -> float:
    """The time for the file less that for its header; the two take turns, so that both meet the same machine."""
    with tempfile.TemporaryDirectory() as folder:
        whole, header = Path(folder, "whole.steps"), Path(folder, "header.steps")
        whole.write_bytes(data)
        header.write_bytes(data[:HEADER_SIZE])
        whole_times, header_times = [], []
        for _ in range(PROGRAM_RUNS):
            whole_times.append(seconds(lambda: run(program, whole)))
            header_times.append(seconds(lambda: run(program, header)))
    return min(whole_times) - min(header_times)


def listing_time(data: bytes) -> float:
    return min(seconds(lambda: listing(data)) for _ in range(LISTING_RUNS))


def report(name: str, program: Path, data: bytes) -> None:
    assert len(data) == LARGEST
    ours, theirs = listing_time(data), program_time(program, data)
    ratio = f"{ours / theirs:.0f} times as long" if theirs > 0 else "too short to tell"
    print(f"{name}: {program.name} {theirs * 1e6:.0f} us, listing.py {ours * 1e6:.0f} us, {ratio}")


def main() -> None:
    program = Path(sys.argv[1] if len(sys.argv) > 1 else ROOT / "crates/lesson/out/lesson").resolve()
    report("sample", program, (ROOT / "samples/three-thousand-records.steps").read_bytes())
    report("generated lesson", program, some_lesson(random.Random(4), MOST_RECORDS).file())


if __name__ == "__main__":
    main()
