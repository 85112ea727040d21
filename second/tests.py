"""Checks of listing.py on the examples that docs/ give, and of the generator: `python3 second/tests.py`."""

import os
import random
import subprocess
import sys
import tempfile
import unittest
from pathlib import Path

from generate import lawful, steps_file
from listing import LARGEST, listing

NOTES_OVER_FOUR_TRAYS = "45 56 51 00 01 02 04 01"
NOTES_OVER_128_TRAYS = "45 56 51 00 01 02 80 01"
DISPATCH = "02 00 00 00 00 00 00 00 00 00"


def note(interval: int) -> str:
    return f"01 07 {interval:02x} 0d 00 00 00 00 00 00"


def turn(cycle: int) -> str:
    return f"03 00 00 00 {cycle:08x} 00 00"


def warn(services: int) -> str:
    return f"05 00 00 00 {services:08x} 00 00"


def lines(*parts: str) -> list[str]:
    return listing(bytes.fromhex(" ".join(parts))).decode("ascii").splitlines()


class Examples(unittest.TestCase):
    def test_the_file_of_steps_file_md(self) -> None:
        found = lines(NOTES_OVER_FOUR_TRAYS, note(2), turn(1), DISPATCH)
        self.assertEqual(found, ["P 0 2", "T 1 0", "D 0 2 7 13", "E 1 1 0 0 0"])

    def test_the_faults_of_steps_file_md(self) -> None:
        self.assertEqual(lines(), ["F 13 0"])
        self.assertEqual(lines("45 56 51 00"), ["F 13 4"])
        self.assertEqual(lines(NOTES_OVER_FOUR_TRAYS, "06"), ["F 14 8"])
        self.assertEqual(lines(NOTES_OVER_FOUR_TRAYS, DISPATCH[:14]), ["F 14 13"])
        self.assertEqual(listing(bytes(LARGEST + 1)), b"F 13 30008\n")

    def test_the_refusals_of_refusals_md(self) -> None:
        self.assertEqual(lines(NOTES_OVER_FOUR_TRAYS, note(4))[0], "R 5")
        self.assertEqual(lines(NOTES_OVER_128_TRAYS, note(1), note(1), note(1))[2], "R 6")
        self.assertEqual(lines(NOTES_OVER_FOUR_TRAYS, turn(2))[0], "R 8")
        self.assertEqual(lines(NOTES_OVER_FOUR_TRAYS, note(1), turn(1), turn(2))[2], "R 9")
        self.assertEqual(lines(NOTES_OVER_FOUR_TRAYS, warn(1_001))[0], "R 12")

    def test_reads_one_byte_more_than_the_largest_file_and_no_further(self) -> None:
        program = Path(__file__).with_name("listing.py")
        with tempfile.TemporaryFile() as file:
            file.write(bytes(LARGEST + 5_000))
            file.flush()
            os.lseek(file.fileno(), 0, os.SEEK_SET)
            found = subprocess.run([sys.executable, program], stdin=file, stdout=subprocess.PIPE, check=True).stdout
            self.assertEqual(found, b"F 13 30008\n")
            self.assertEqual(os.lseek(file.fileno(), 0, os.SEEK_CUR), LARGEST + 1)


class Generator(unittest.TestCase):
    def test_a_seed_gives_one_file(self) -> None:
        for seed in range(50):
            self.assertEqual(steps_file(seed), steps_file(seed))

    def test_lawful_files_are_lawful(self) -> None:
        for seed in range(300):
            last = listing(lawful(random.Random(seed))).splitlines()[-1]
            self.assertTrue(last.startswith(b"E "), f"seed {seed}: {last!r}")


if __name__ == "__main__":
    unittest.main()
