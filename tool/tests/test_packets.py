"""Tests of packets and of `explain FLIT`. The expected values are vectors of other programs, the
worked examples of docs/crc.md and README.md, and a division that uses no table."""

import random
import unittest
from collections.abc import Iterator

from tool import packets
from tool.commands import BY_WORD
from tool.tests.shared import DATA, output_of, tool

# The names of the columns after the command, as the tool writes the fields.
COLUMNS = ("TAG", "ADRS", "CUB", "SLID", "AF", "ERRSTAT", "RTC", "SEQ", "FRP")


def divided(data: bytes) -> int:
    """The check by long division of one whole number, bit by bit."""
    rest = int.from_bytes(data, "big") << 32
    divisor = (1 << 32) | 0x741B8CD7
    while rest.bit_length() > 32:
        rest ^= divisor << (rest.bit_length() - 33)
    return rest

# Its command, its columns, whether it is poisoned, its return pointer, and its flits.
Row = tuple[str, dict[str, str], str, str, list[str]]


def vectors(name: str) -> Iterator[Row]:
    """Yields the rows of a table of packets."""
    for line in (DATA / name).read_text(encoding="utf-8").splitlines():
        if not line.startswith("#"):
            words = line.split()
            yield words[0], dict(zip(COLUMNS, words[1:10])), words[10], words[11], words[12:]


def shown_fields(text: str) -> dict[str, list[str]]:
    """The lines of fields in what `explain` writes, by their name."""
    rows = [line.split() for line in text.splitlines() if line.startswith("  ")]
    return {row[0]: row[1:] for row in rows}


class Check(unittest.TestCase):
    def test_worked_examples(self) -> None:
        for last, value in ((1, 0x741B8CD7), (2, 0xE83719AE), (4, 0xA475BF8B)):
            self.assertEqual(packets.crc(bytes(11) + bytes([last])), value)

    def test_equals_long_division(self) -> None:
        chance = random.Random(1)
        for length in range(0, 273, 7):
            data = chance.randbytes(length)
            self.assertEqual(packets.crc(data), divided(data))


class Vectors(unittest.TestCase):
    def check_row(self, row: Row, profile: int) -> None:
        command, columns, poisoned, rrp, flits = row
        packet = packets.Packet(tuple(map(bytes.fromhex, flits)), profile)
        self.assertIsNone(packets.failed_test(packet))
        self.assertEqual(packet.command, BY_WORD[command])
        state = "inverted" if poisoned == "1" else "right"
        self.assertEqual(packet.check_state, state)
        header = packets.values_of(packets.header_fields(packet.command), packet.header)
        tail = packets.values_of(packets.tail_fields(packet.command, profile), packet.tail)
        found = {**header, **tail}
        self.assertEqual(found["RRP"], int(rrp))
        for name, value in columns.items():
            self.assertEqual(found.get(name, 0), int(value, 0), f"{command} {name}")

    def test_both_profiles(self) -> None:
        for name, profile in (("packets-one.txt", 1), ("packets-two.txt", 2)):
            rows = list(vectors(name))
            self.assertEqual(len(rows), 72)
            for row in rows:
                with self.subTest(name=name, command=row[0]):
                    self.check_row(row, profile)

    def test_every_command_has_a_vector(self) -> None:
        seen = {row[0] for row in vectors("packets-one.txt")}
        self.assertEqual(seen | {"null"}, set(BY_WORD))


class Explain(unittest.TestCase):
    def test_the_packet_of_the_readme(self) -> None:
        text = output_of(
            "explain", "08010040000000000001020304050607", "08090a0b0c0d0e0f000404000158a362"
        )
        fields = shown_fields(text)
        self.assertEqual(fields["CMD"], ["6..0", "8", "wr16"])
        self.assertEqual(fields["LNG"], ["11..7", "2"])
        self.assertEqual(fields["ADRS"], ["57..24", "0x40"])
        self.assertEqual(fields["FRP"], ["17..9", "2"])
        self.assertEqual(fields["SEQ"], ["20..18", "1"])
        self.assertEqual(fields["CRC"], ["63..32", "0x62a35801", "right"])
        self.assertIn("payload  000102030405060708090a0b0c0d0e0f\n", text)
        self.assertTrue(text.endswith("reads as: a packet\n"))

    def test_a_poisoned_packet(self) -> None:
        text = output_of(
            "explain", "0801004001000000ffffffffffffffff", "ffffffffffffffff000a0c007f06d87c"
        )
        right = 0x7CD8067F ^ 0xFFFFFFFF
        self.assertIn(f"inverted: the right one is 0x{right:08x}", text)
        self.assertIn("reads as: a poisoned packet", text)

    def test_a_changed_bit(self) -> None:
        text = output_of("explain", "b000004001000000021014009b965748")
        self.assertIn("wrong: the right one is 0x4957969b", text)
        self.assertTrue(text.endswith("reads as: refused, test Crc\n"))

    def test_the_first_test_that_fails(self) -> None:
        # An LNG of 0, a part of a packet, an unknown code, a rd16 of two flits, and bit 21 set.
        rows = (
            (["10000000000000000000000000000000"], "Length"),
            (["08010040000000000001020304050607"], "Length"),
            (["ff000000000000000000000000000000"], "Command"),
            (["30010000000000000000000000000000"] * 2, "Command"),
            (["b0000000000000000000200000000000"], "Reserved"),
        )
        for flits, test in rows:
            self.assertIn(f"reads as: refused, test {test}", output_of("explain", *flits))

    def test_flits_that_are_no_packets(self) -> None:
        self.assertIn("NULL", output_of("explain", "0" * 32))
        self.assertIn("the training flit", output_of("explain", "5a" * 16))

    def test_profile_two(self) -> None:
        text = output_of("explain", "--profile", "2", "8200000000000000008832a0d18fd6e5")
        fields = shown_fields(text)
        self.assertEqual(fields["FRP"], ["21..11", "1617"])
        self.assertEqual(fields["RTC"], ["31..29", "5", "tokens", "returned:", "16"])

    def test_two_packets(self) -> None:
        text = output_of("explain", "0" * 32, "b900000000000000050204002ff19e1d")
        self.assertIn("NULL", text)
        self.assertIn("wr_rs: a response", text)

    def test_a_word_that_is_no_flit(self) -> None:
        self.assertEqual(tool("explain", "0102").returncode, 64)


if __name__ == "__main__":
    unittest.main()
