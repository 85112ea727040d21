"""A steps file on standard input to its listing on standard output.

This is a second program for what `lesson` does, written from docs/ and samples/ without a look at crates/. It is the
machine of docs/dispatcher.md over plain lists, with the limits of docs/banks.md, the refusals of docs/refusals.md and
the files of docs/steps-file.md.

Not every refusal is here. The dispatcher is opened once, at cycle 0 and receipt 0, over an empty bank of at least two
trays, and a file has at most 3,000 records, so a file cannot cause refusals 1 to 4, 7, 10, 11, 15 and 16.
"""

import sys
from bisect import bisect_right
from collections.abc import Iterator, Sequence
from dataclasses import dataclass, field
from io import RawIOBase
from typing import NamedTuple

# ---- Steps files (docs/steps-file.md) ----

HEADER_SIZE = 8
RECORD_SIZE = 10
MOST_RECORDS = 3_000
LARGEST = HEADER_SIZE + MOST_RECORDS * RECORD_SIZE

PEN, NOTE = 1, 2
ROW, CHAIN = 1, 2
POST, DISPATCH, TURN, NAME, WARN = 1, 2, 3, 4, 5

Layout = Sequence[range]
"""The lawful values of each byte, from the first on."""


def only(value: int) -> range:
    return range(value, value + 1)


ANY = range(256)
ZERO = only(0)

HEADER: Layout = [
    only(0x45), only(0x56), only(0x51),  # the mark
    only(0), only(1),  # the version
    range(PEN, NOTE + 1),
    range(2, 128 + 1),  # the number of trays
    range(ROW, CHAIN + 1),
]

PEN_POST: Layout = [only(POST), ANY, range(1, 3 + 1), ZERO] + 6 * [ANY]
NOTE_POST: Layout = [only(POST), ANY, ANY, range(11, 13 + 1)] + 4 * [ANY] + 2 * [ZERO]
UNKNOWN_STEP: Layout = [range(POST, WARN + 1)]


def step_alone(step: int) -> Layout:
    return [only(step)] + 9 * [ZERO]


def step_with_number(step: int) -> Layout:
    return [only(step)] + 3 * [ZERO] + 4 * [ANY] + 2 * [ZERO]


RECORDS: dict[int, dict[int, Layout]] = {
    message_type: {
        POST: post,
        DISPATCH: step_alone(DISPATCH),
        TURN: step_with_number(TURN),
        NAME: step_alone(NAME),
        WARN: step_with_number(WARN),
    }
    for message_type, post in [(PEN, PEN_POST), (NOTE, NOTE_POST)]
}
"""The layout of each step's record, by the type of the file's messages."""


class Fault(Exception):
    """A file is not lawful."""

    def __init__(self, number: int, offset: int) -> None:
        super().__init__(number, offset)
        self.number = number
        self.offset = offset


def check(data: bytes, start: int, layout: Layout) -> None:
    """Fails at the first byte from `start` on that is not as in the layout, or at the end if the file breaks off."""
    for offset, lawful in enumerate(layout, start):
        if offset == len(data) or data[offset] not in lawful:
            raise Fault(13 if offset < HEADER_SIZE else 14, offset)


class Header(NamedTuple):
    message_type: int
    trays: int
    bank: int


def read_header(data: bytes) -> Header:
    if len(data) > LARGEST:
        raise Fault(13, LARGEST)
    check(data, 0, HEADER)
    return Header(message_type=data[5], trays=data[6], bank=data[7])


def read_records(data: bytes, message_type: int) -> Iterator[bytes]:
    """Each record in turn, up to the end of the file or its fault."""
    layouts = RECORDS[message_type]
    for start in range(HEADER_SIZE, len(data), RECORD_SIZE):
        check(data, start, layouts.get(data[start], UNKNOWN_STEP))
        yield data[start : start + RECORD_SIZE]


# ---- Messages (docs/messages.md) ----


class Message(NamedTuple):
    pad: int
    kind: int
    interval: int


PEN_STAGES = {1: (1, 1), 2: (2, 2), 3: (3, 3)}
"""The kind and the interval that a pen message tells, by its stage."""


def posted_message(record: bytes, message_type: int) -> Message:
    pad = record[1]
    if message_type == PEN:
        kind, interval = PEN_STAGES[record[2]]
    else:
        kind, interval = record[3], record[2]
    return Message(pad, kind, interval)


# ---- The dispatcher (docs/dispatcher.md, docs/refusals.md, docs/banks.md) ----

CELLS = 256
MOST_SERVICES = 1_000


class Refused(Exception):
    """A call is refused, and has changed nothing."""

    def __init__(self, number: int) -> None:
        super().__init__(number)
        self.number = number


class Entry(NamedTuple):
    receipt: int
    deadline: int
    message: Message


class Load(NamedTuple):
    """What a warning names: so many entries are due within so many cycles."""

    cycles: int
    entries: int


@dataclass
class Dispatcher:
    """An open dispatcher. Its two lists are in posting order."""

    trays: int
    tray_limit: int
    total_limit: int
    cycle: int = 0
    next_receipt: int = 0
    pending: list[Entry] = field(default_factory=list)
    waiting: list[Entry] = field(default_factory=list)
    accepted: int = 0
    dispatched: int = 0
    late: int = 0

    @property
    def span(self) -> int:
        """The longest interval; docs/ call it N."""
        return self.trays - 1

    def post(self, message: Message) -> Entry:
        if not 1 <= message.interval <= self.span:
            raise Refused(5)
        deadline = self.cycle + message.interval
        if self.is_full(deadline % self.trays):
            raise Refused(6)
        entry = Entry(self.next_receipt, deadline, message)
        self.pending.append(entry)
        self.next_receipt += 1
        self.accepted += 1
        return entry

    def is_full(self, tray: int) -> bool:
        """Whether the tray, or the whole bank, takes no more. Pending and waiting entries lie in the trays."""
        entries = self.pending + self.waiting
        in_tray = [entry for entry in entries if entry.deadline % self.trays == tray]
        return len(in_tray) >= self.tray_limit or len(entries) >= self.total_limit

    def dispatch(self) -> Entry | None:
        if not self.pending:
            return None
        # Of several with the smallest deadline, `min` gives the first in the list.
        entry = min(self.pending, key=lambda entry: entry.deadline)
        self.pending.remove(entry)
        self.dispatched += 1
        return entry

    def turn(self, cycle: int) -> int:
        if self.waiting:
            raise Refused(9)
        if cycle != self.cycle + 1:
            raise Refused(8)
        self.cycle = cycle
        became_late = [entry for entry in self.pending if entry.deadline == cycle]
        self.pending = [entry for entry in self.pending if entry.deadline != cycle]
        self.waiting += became_late
        self.late += len(became_late)
        return len(became_late)

    def name(self) -> Entry | None:
        return self.waiting.pop(0) if self.waiting else None

    def warn(self, services: int) -> Load | None:
        if services > MOST_SERVICES:
            raise Refused(12)
        deadlines = sorted(entry.deadline for entry in self.pending)
        for cycles in range(1, self.span + 1):
            due = bisect_right(deadlines, self.cycle + cycles)  # how many deadlines are at most that cycle
            if due > services * cycles:
                return Load(cycles, due)
        return None


def new_dispatcher(trays: int, bank: int) -> Dispatcher:
    """An open dispatcher over an empty bank of 256 cells."""
    if bank == ROW:
        tray_limit = CELLS // trays
        total_limit = tray_limit * trays
    else:
        tray_limit = total_limit = CELLS
    return Dispatcher(trays, tray_limit, total_limit)


# ---- The listing (docs/listing.md) ----


def entry_line(letter: str, entry: Entry | None) -> str:
    if entry is None:
        return f"{letter} -"
    return f"{letter} {entry.receipt} {entry.deadline} {entry.message.pad} {entry.message.kind}"


def make_call(dispatcher: Dispatcher, record: bytes, message_type: int) -> str:
    """Makes the call that a lawful record asks for, and gives its line."""
    step = record[0]
    number = int.from_bytes(record[4:8], "big")
    if step == POST:
        entry = dispatcher.post(posted_message(record, message_type))
        return f"P {entry.receipt} {entry.deadline}"
    if step == DISPATCH:
        return entry_line("D", dispatcher.dispatch())
    if step == TURN:
        became_late = dispatcher.turn(number)
        return f"T {dispatcher.cycle} {became_late}"
    if step == NAME:
        return entry_line("L", dispatcher.name())
    load = dispatcher.warn(number)
    return "W -" if load is None else f"W {load.cycles} {load.entries}"


def record_line(dispatcher: Dispatcher, record: bytes, message_type: int) -> str:
    try:
        return make_call(dispatcher, record, message_type)
    except Refused as refused:
        return f"R {refused.number}"


def last_line(dispatcher: Dispatcher) -> str:
    counts = f"{dispatcher.accepted} {dispatcher.dispatched} {dispatcher.late}"
    return f"E {counts} {len(dispatcher.pending)} {len(dispatcher.waiting)}"


def lines(data: bytes) -> Iterator[str]:
    try:
        header = read_header(data)
        dispatcher = new_dispatcher(header.trays, header.bank)
        for record in read_records(data, header.message_type):
            yield record_line(dispatcher, record, header.message_type)
        yield last_line(dispatcher)
    except Fault as fault:
        yield f"F {fault.number} {fault.offset}"


def listing(data: bytes) -> bytes:
    """The listing of a steps file, lawful or not."""
    return "".join(f"{line}\n" for line in lines(data)).encode("ascii")


# ---- The program ----


def read_at_most(stream: RawIOBase, most: int) -> bytes:
    """Reads to the end of the stream, but no more than `most` bytes of it."""
    data = b""
    while len(data) < most and (more := stream.read(most - len(data))):
        data += more
    return data


def main() -> None:
    # One byte more than a lawful file can have tells that a file is too long. Reading goes past the buffer, which
    # would take in more than it is asked for.
    data = read_at_most(sys.stdin.buffer.raw, LARGEST + 1)
    sys.stdout.buffer.write(listing(data))


if __name__ == "__main__":
    main()
