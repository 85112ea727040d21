"""What the generated steps files reach: `python3 second/coverage.py [COUNT]`.

It looks at the files of COUNT seeds from 0 on, or of 2,000, as listing.py lists them. It counts refusal numbers, line
letters (with `-` where the answer is none), headers and lengths of lawful files, and the places of faults. The status
is 1 if one that is expected is never reached.
"""

import sys
from collections import Counter
from collections.abc import Iterator

from generate import steps_file
from listing import HEADER_SIZE, LARGEST, NOTE, PEN, RECORD_SIZE, listing

LETTERS = ["P", "D", "D -", "T", "L", "L -", "W", "W -", "R", "E", "F"]
REFUSALS = ["R 5", "R 6", "R 8", "R 9", "R 12", "F 13", "F 14"]
HEADERS = [f"{messages}, {bank} bank" for messages in ("pens", "notes") for bank in ("row", "chain")]
TRAYS = ["2 trays", "128 trays"]
RECORDS = ["no records", "3,000 records"]
STEPS = {2: "dispatch", 3: "turn", 4: "name", 5: "warn"}
ZERO_PLACES = {
    "dispatch": range(1, RECORD_SIZE),
    "turn": [1, 2, 3, 8, 9],
    "name": range(1, RECORD_SIZE),
    "warn": [1, 2, 3, 8, 9],
}
FAULTS = [
    "file too long",
    *[f"header cut at {place}" for place in range(HEADER_SIZE)],
    *[f"header byte {place}" for place in range(HEADER_SIZE)],
    *[f"record cut at {place}" for place in range(1, RECORD_SIZE)],
    "record byte 0",
    "pen post byte 2",
    "pen post byte 3",
    "note post byte 3",
    "note post byte 8",
    "note post byte 9",
    *[f"{step} byte {place}" for step, places in ZERO_PLACES.items() for place in places],
]
EXPECTED = {
    "refusal numbers": REFUSALS,
    "line letters": LETTERS,
    "headers of lawful files": HEADERS + TRAYS,
    "lengths of lawful files": RECORDS,
    "faults": FAULTS,
}


def fault_place(data: bytes, offset: int) -> str:
    """What is at fault in the file, in the words of FAULTS."""
    if len(data) > LARGEST:
        return "file too long"
    is_cut = offset == len(data)
    if offset < HEADER_SIZE:
        return f"header cut at {offset}" if is_cut else f"header byte {offset}"
    place = (offset - HEADER_SIZE) % RECORD_SIZE
    if is_cut:
        return f"record cut at {place}"
    if place == 0:
        return "record byte 0"
    post = {PEN: "pen post", NOTE: "note post"}[data[5]]
    return f"{STEPS.get(data[offset - place], post)} byte {place}"


def reached_by(data: bytes) -> Iterator[str]:
    """Everything to be counted for one file."""
    for line in listing(data).decode("ascii").splitlines():
        letter, first, *_ = line.split()
        yield f"{letter} -" if first == "-" else letter
        if letter in ("R", "F"):
            yield f"{letter} {first}"
        if letter == "F":
            yield fault_place(data, int(line.split()[2]))
        if letter == "E":
            yield f"{['pens', 'notes'][data[5] - 1]}, {['row', 'chain'][data[7] - 1]} bank"
            yield f"{data[6]} trays"
            yield {HEADER_SIZE: "no records", LARGEST: "3,000 records"}.get(len(data), "other length")


def main() -> None:
    count = int(sys.argv[1]) if len(sys.argv) > 1 else 2_000
    reached: Counter[str] = Counter()
    for seed in range(count):
        reached.update(reached_by(steps_file(seed)))
    for title, names in EXPECTED.items():
        print(f"{title}:")
        for name in names:
            print(f"  {name:20}{reached[name]:8}")
    missing = [name for names in EXPECTED.values() for name in names if not reached[name]]
    if missing:
        sys.exit(f"{count} files never reach: {'; '.join(missing)}")
    print(f"{count} files reach all of these")


if __name__ == "__main__":
    main()
