"""Steps files made from a seed: the same file for the same seed, every time.

`python3 second/generate.py SEED` writes the file to standard output.

Three files in five are lawful. They are made of scenes, as filling a tray or letting messages go late, and while
one is written, a rough model is kept of what the dispatcher then has, so that most turns are told the right cycle and
warnings are told numbers at which the answer just changes. Nothing depends on the model being right. The others are
unlawful: a lawful file is made and spoiled in one of the ways that docs/steps-file.md rules out.
"""

import random
import sys
from collections import Counter
from collections.abc import Callable

HEADER_SIZE = 8
RECORD_SIZE = 10
MOST_RECORDS = 3_000
LARGEST = HEADER_SIZE + MOST_RECORDS * RECORD_SIZE
CELLS = 256

PEN, NOTE = 1, 2
ROW, CHAIN = 1, 2
POST, DISPATCH, TURN, NAME, WARN = 1, 2, 3, 4, 5
STAGES = range(1, 4)
KINDS = range(11, 14)

HUGE = [4_000_000_000, 4_000_000_001, 0x7FFFFFFF, 0x80000000, 0xFFFFFFFF]


# ---- Records ----


def header_bytes(message_type: int, trays: int, bank: int) -> bytes:
    return b"EVQ" + bytes([0, 1, message_type, trays, bank])


def step_bytes(step: int, number: int = 0) -> bytes:
    """The record of a dispatch, turn, name or warn."""
    return bytes([step, 0, 0, 0]) + number.to_bytes(4, "big") + bytes(2)


def pen_bytes(rng: random.Random, stage: int) -> bytes:
    return bytes([POST, some_pad(rng), stage, 0]) + rng.randbytes(6)


def note_bytes(rng: random.Random, interval: int) -> bytes:
    return bytes([POST, some_pad(rng), interval, rng.choice(KINDS)]) + rng.randbytes(4) + bytes(2)


def some_pad(rng: random.Random) -> int:
    return rng.choice([0, 255, rng.randrange(256)])


# ---- A lesson that is being written ----


class Lesson:
    """The records so far, and roughly what the dispatcher has after them."""

    def __init__(self, rng: random.Random, size: int) -> None:
        self.rng = rng
        self.size = size
        self.message_type = rng.choice([PEN, NOTE])
        self.bank = rng.choice([ROW, CHAIN])
        self.trays = some_trays(rng)
        self.tray_limit = CELLS // self.trays if self.bank == ROW else CELLS
        self.total_limit = self.tray_limit * self.trays if self.bank == ROW else CELLS
        self.records: list[bytes] = []
        self.cycle = 0
        self.pending: Counter[int] = Counter()  # how many entries have a deadline
        self.waiting = 0

    def is_done(self) -> bool:
        return len(self.records) >= self.size

    def file(self) -> bytes:
        return header_bytes(self.message_type, self.trays, self.bank) + b"".join(self.records[: self.size])

    @property
    def span(self) -> int:
        """The longest interval that the dispatcher accepts; docs/ call it N."""
        return self.trays - 1

    @property
    def longest(self) -> int:
        """The longest interval that is accepted and that a message of this type can have."""
        return min(self.span, 3) if self.message_type == PEN else self.span

    def an_interval(self) -> int:
        """One that is accepted, if there is room."""
        return self.rng.choice([1, self.longest, self.rng.randint(1, self.longest)])

    def a_wrong_interval(self) -> int:
        """0 or over the span. A pen message has an interval of 1 to 3, so with many trays it has no wrong one."""
        if self.message_type == PEN:
            return 3
        return self.rng.choice([0, min(self.span + 1, 255), 255, self.rng.randint(self.span + 1, 255)])

    def post(self, interval: int) -> None:
        make = pen_bytes if self.message_type == PEN else note_bytes
        self.records.append(make(self.rng, interval))
        deadline = self.cycle + interval
        has_room = self.pending[deadline] < self.tray_limit and self.held() < self.total_limit
        if 1 <= interval <= self.span and has_room:
            self.pending[deadline] += 1

    def held(self) -> int:
        return self.pending.total() + self.waiting

    def dispatch(self) -> None:
        self.records.append(step_bytes(DISPATCH))
        if first := min(+self.pending, default=None):
            self.pending[first] -= 1

    def turn(self, cycle: int | None = None) -> None:
        """A turn to the cycle, or else to the next one."""
        told = self.cycle + 1 if cycle is None else cycle
        self.records.append(step_bytes(TURN, told))
        if told == self.cycle + 1 and self.waiting == 0:
            self.cycle = told
            self.waiting = self.pending.pop(told, 0)

    def wrong_turn(self) -> None:
        right = self.cycle + 1
        wrong = [right - 1, right - 2, right + 1, 0, right + 256, right + 65_536, right << 8, right << 24, *HUGE]
        self.turn(self.rng.choice(wrong) % 2**32)

    def name(self) -> None:
        self.records.append(step_bytes(NAME))
        self.waiting = max(0, self.waiting - 1)

    def warn(self, services: int) -> None:
        self.records.append(step_bytes(WARN, services))

    def due_within(self, cycles: int) -> int:
        return sum(count for deadline, count in self.pending.items() if deadline <= self.cycle + cycles)

    def most_named(self) -> int:
        """The largest number of services at which a warning still names something; below 0 if there is none."""
        ahead = [deadline - self.cycle for deadline in +self.pending]
        return max(((self.due_within(cycles) - 1) // cycles for cycles in ahead), default=-1)

    def warn_at_the_edge(self) -> None:
        """Just names something, just does not, or is near the change for one number of cycles."""
        most = self.most_named()
        cycles = self.rng.randint(1, self.span)
        near = self.due_within(cycles) // cycles
        self.warn(max(0, self.rng.choice([most, most + 1, near - 1, near])))

    def odd_warn(self) -> None:
        near = [0, 1, 255, 256, 999, 1_000, 1_001, 1_002, 1_024]
        far = [65_536, 65_537, 1 << 24, 1_000 << 16, self.rng.randrange(2**32), *HUGE]
        self.warn(self.rng.choice(near + far))


def some_trays(rng: random.Random) -> int:
    small = rng.randint(2, 9)
    edge = rng.choice([2, 3, 4, 5, 63, 64, 65, 85, 86, 100, 127, 128])
    return rng.choice([small, small, edge, rng.randint(2, 128)])


# ---- Scenes of a lesson ----


def mixed(lesson: Lesson) -> None:
    """Any step at all, for a while."""
    rng = lesson.rng
    steps: list[tuple[int, Callable[[], None]]] = [
        (12, lambda: lesson.post(lesson.an_interval())),
        (3, lambda: lesson.post(lesson.a_wrong_interval())),
        (5, lesson.dispatch),
        (4, lesson.turn),
        (1, lesson.wrong_turn),
        (4, lesson.name),
        (3, lesson.warn_at_the_edge),
        (1, lesson.odd_warn),
    ]
    weights = [weight for weight, _ in steps]
    for _, step in rng.choices(steps, weights, k=rng.randint(5, 60)):
        step()


def fill_a_tray(lesson: Lesson) -> None:
    """Posts of one interval until the tray takes no more, and one or two on top; then another tray has its turn."""
    interval = lesson.an_interval()
    for _ in range(lesson.tray_limit - lesson.pending[lesson.cycle + interval] + lesson.rng.randint(0, 2)):
        lesson.post(interval)
    lesson.post(lesson.a_wrong_interval())
    lesson.post(lesson.an_interval())
    lesson.dispatch()
    lesson.post(interval)


def fill_the_bank(lesson: Lesson) -> None:
    """Posts of any interval until hardly one is accepted."""
    for _ in range(lesson.total_limit - lesson.held() + lesson.rng.randint(0, 3)):
        lesson.post(lesson.an_interval())
    lesson.warn_at_the_edge()


def empty_the_bank(lesson: Lesson) -> None:
    """Dispatches until there is nothing to dispatch, and then some."""
    for _ in range(lesson.pending.total() + lesson.rng.randint(1, 3)):
        lesson.dispatch()


def run_ahead(lesson: Lesson) -> None:
    """Many turns, some told a wrong cycle, some while late messages wait, and few other steps."""
    for _ in range(lesson.rng.randint(3, 150)):
        chance = lesson.rng.random()
        if lesson.waiting and chance < 0.8:
            lesson.name()
        elif chance < 0.1:
            lesson.wrong_turn()
        elif chance < 0.2:
            lesson.post(lesson.an_interval())
        else:
            lesson.turn()


def go_late(lesson: Lesson) -> None:
    """Posts that become late; what can be done while they wait; and then they are named, mostly all."""
    rng = lesson.rng
    interval = lesson.an_interval()
    for _ in range(rng.randint(1, 5)):
        lesson.post(interval)
    for _ in range(interval):
        lesson.turn()
        while lesson.waiting and rng.random() < 0.9 and not lesson.is_done():
            lesson.name()
    meanwhile: list[Callable[[], None]] = [
        lesson.turn,
        lesson.wrong_turn,
        lesson.dispatch,
        lesson.warn_at_the_edge,
        lambda: lesson.post(lesson.an_interval()),
        lambda: lesson.post(lesson.longest),
        lambda: lesson.post(lesson.a_wrong_interval()),
    ]
    for step in rng.choices(meanwhile, k=rng.randint(1, 6)):
        step()
    for _ in range(lesson.waiting + rng.randint(-1, 2)):
        lesson.name()


def late_and_full(lesson: Lesson) -> None:
    """A tray is filled and all of it becomes late, and posts come in while it waits in the bank."""
    for _ in range(lesson.tray_limit):
        lesson.post(1)
    lesson.turn()
    for _ in range(lesson.rng.randint(1, 8)):
        lesson.post(lesson.an_interval())
    for _ in range(lesson.rng.randint(1, 4)):
        lesson.name()
        lesson.post(lesson.an_interval())
    for _ in range(lesson.waiting):
        lesson.name()


def ordinary_cycles(lesson: Lesson) -> None:
    """As a hub goes about it: in each cycle some posts, a warning, some dispatches, a turn, and all late are named."""
    rng = lesson.rng
    posts, dispatches = rng.randint(0, 6), rng.randint(0, 5)
    for _ in range(rng.randint(1, 20)):
        for _ in range(rng.randint(0, posts)):
            lesson.post(lesson.an_interval())
        lesson.warn_at_the_edge()
        for _ in range(dispatches):
            lesson.dispatch()
        lesson.turn()
        for _ in range(lesson.waiting):
            lesson.name()


def warnings(lesson: Lesson) -> None:
    """A few posts, and warnings told numbers on both sides of each change."""
    rng = lesson.rng
    for _ in range(rng.randint(0, 12)):
        lesson.post(lesson.an_interval())
    most = lesson.most_named()
    lesson.warn(max(0, most))
    lesson.warn(most + 1)
    for _ in range(rng.randint(1, 4)):
        lesson.warn_at_the_edge()
        lesson.odd_warn()


SCENES = [
    mixed,
    mixed,
    fill_a_tray,
    fill_the_bank,
    empty_the_bank,
    run_ahead,
    go_late,
    go_late,
    late_and_full,
    ordinary_cycles,
    ordinary_cycles,
    warnings,
]


def some_lesson(rng: random.Random, size: int) -> Lesson:
    """A lesson of just so many records, with scenes of all kinds or of a few."""
    lesson = Lesson(rng, size)
    scenes = rng.choice([SCENES, rng.sample(SCENES, rng.randint(1, 3))])
    while not lesson.is_done():
        rng.choice(scenes)(lesson)
    return lesson


# ---- Whole files ----


def lawful(rng: random.Random) -> bytes:
    """Mostly short, a few of full length."""
    sizes = [rng.randint(0, 20), rng.randint(20, 100), rng.randint(100, 500), rng.randint(500, 2_999), MOST_RECORDS]
    [size] = rng.choices(sizes, weights=[20, 46, 26, 5, 3])
    return some_lesson(rng, size).file()


def short_file(rng: random.Random) -> bytearray:
    """With at least one record."""
    return bytearray(some_lesson(rng, rng.randint(1, 40)).file())


def some_record(rng: random.Random, data: bytes) -> int:
    """The offset of one of the file's records."""
    return rng.randrange(HEADER_SIZE, len(data), RECORD_SIZE)


def other_byte(rng: random.Random, lawful_values: range) -> int:
    """A byte that is not one of these: beside them, at the end of the range of bytes, or any."""
    beside = [lawful_values.start - 1, lawful_values.stop, 0, 255, rng.randrange(256)]
    others = [value for value in beside if 0 <= value <= 255 and value not in lawful_values]
    return rng.choice(others)


def wrong_header_byte(rng: random.Random) -> bytes:
    data = short_file(rng)
    place = rng.randrange(HEADER_SIZE)
    lawful_values = {5: range(PEN, NOTE + 1), 6: range(2, 129), 7: range(ROW, CHAIN + 1)}
    data[place] = other_byte(rng, lawful_values.get(place, range(data[place], data[place] + 1)))
    return bytes(data)


def cut_in_the_header(rng: random.Random) -> bytes:
    return bytes(short_file(rng)[: rng.randrange(HEADER_SIZE)])


def cut_in_a_record(rng: random.Random) -> bytes:
    data = short_file(rng)
    return bytes(data[: some_record(rng, data) + rng.randint(1, RECORD_SIZE - 1)])


def wrong_step(rng: random.Random) -> bytes:
    data = short_file(rng)
    data[some_record(rng, data)] = other_byte(rng, range(POST, WARN + 1))
    return bytes(data)


def put_post(rng: random.Random, data: bytearray, start: int) -> None:
    """Puts a post of the file's type of message in the place of a record."""
    post = pen_bytes(rng, rng.choice(STAGES)) if data[5] == PEN else note_bytes(rng, rng.randrange(256))
    data[start : start + RECORD_SIZE] = post


def wrong_stage_or_kind(rng: random.Random) -> bytes:
    data = short_file(rng)
    start = some_record(rng, data)
    put_post(rng, data, start)
    place, lawful_values = (2, STAGES) if data[5] == PEN else (3, KINDS)
    data[start + place] = other_byte(rng, lawful_values)
    return bytes(data)


def byte_that_should_be_zero(rng: random.Random) -> bytes:
    data = short_file(rng)
    start = some_record(rng, data)
    [step] = rng.choices([POST, DISPATCH, TURN, NAME, WARN], weights=[4, 9, 5, 9, 5])
    if step == POST:
        put_post(rng, data, start)
        places = [3] if data[5] == PEN else [8, 9]
    elif step in (TURN, WARN):
        data[start : start + RECORD_SIZE] = step_bytes(step, rng.randrange(4))
        places = [1, 2, 3, 8, 9]
    else:
        data[start : start + RECORD_SIZE] = step_bytes(step)
        places = list(range(1, RECORD_SIZE))
    data[start + rng.choice(places)] = other_byte(rng, range(1))
    return bytes(data)


def too_long(rng: random.Random) -> bytes:
    """By one byte, by a record, or by much; its bytes lawful up to there, or not."""
    more = rng.choice([1, 1, 2, RECORD_SIZE, rng.randint(1, 100_000)])
    begin = rng.choice([b"", bytes(short_file(rng)), wrong_header_byte(rng)])
    lawful_rest = step_bytes(rng.choice([DISPATCH, NAME])) * (MOST_RECORDS + 10_100)
    return (begin + lawful_rest)[: LARGEST + more]


def largest_but(rng: random.Random) -> bytes:
    """A file of full length, and something about its last record, as a byte too few or a wrong one."""
    data = bytearray(some_lesson(rng, MOST_RECORDS).file())
    start = LARGEST - RECORD_SIZE
    change = rng.choice(["one too many", "one too few", "cut", "wrong step"])
    if change == "one too many":
        data += rng.randbytes(1)
    elif change == "one too few":
        del data[-1]
    elif change == "cut":
        del data[start + rng.randint(1, RECORD_SIZE - 1) :]
    else:
        data[start] = other_byte(rng, range(POST, WARN + 1))
    return bytes(data)


def spoiled_more_than_once(rng: random.Random) -> bytes:
    """A few bytes are changed, wherever they are, and perhaps the file is cut as well. It may still be lawful."""
    data = short_file(rng)
    for _ in range(rng.randint(1, 4)):
        data[rng.randrange(len(data))] = rng.choice([0, 1, 2, 3, 4, 5, 6, 11, 14, 255, rng.randrange(256)])
    if rng.random() < 0.5:
        del data[rng.randrange(len(data)) :]
    return bytes(data)


def noise(rng: random.Random) -> bytes:
    """Bytes without sense, alone or behind a lawful header."""
    begin = rng.choice([b"", bytes(short_file(rng)[:HEADER_SIZE])])
    small = bytes(rng.randrange(6) for _ in range(rng.randint(1, 60)))
    return begin + rng.choice([rng.randbytes(rng.randint(1, 60)), small])


UNLAWFUL = {
    wrong_header_byte: 16,
    cut_in_the_header: 10,
    cut_in_a_record: 14,
    wrong_step: 6,
    wrong_stage_or_kind: 10,
    byte_that_should_be_zero: 32,
    too_long: 5,
    largest_but: 1,
    spoiled_more_than_once: 8,
    noise: 4,
}


def unlawful(rng: random.Random) -> bytes:
    [make] = rng.choices(list(UNLAWFUL), weights=list(UNLAWFUL.values()))
    return make(rng)


def steps_file(seed: int) -> bytes:
    rng = random.Random(seed)
    return lawful(rng) if rng.random() < 0.6 else unlawful(rng)


def main() -> None:
    if len(sys.argv) != 2:
        sys.exit("usage: python3 second/generate.py SEED")
    sys.stdout.buffer.write(steps_file(int(sys.argv[1])))


if __name__ == "__main__":
    main()
