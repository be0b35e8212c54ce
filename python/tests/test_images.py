"""Bytes are read as an image where the program takes them as one, and refused with the byte that it names."""
import random
import unittest
from pathlib import Path

from kulzobad import BadImage, Job, Machine, OtherMachine, Right, Row, check
from kulzobad.images import decode, encode

EXAMPLES = Path(__file__).resolve().parents[2] / "examples"


def chip(x, y, *rows):
    """The bytes of a chip's table, each row a key, a mask and a route."""
    words = b"".join(word.to_bytes(4, "little") for row in rows for word in row)
    return bytes([x, y]) + len(rows).to_bytes(2, "little") + words


def image(width, height, wrap, *chips):
    """The bytes of an image, written here by hand."""
    return b"SPNT\1" + bytes([width, height, wrap]) + len(chips).to_bytes(2, "little") + b"".join(chips)


ALL = 0xFFFFFFFF
ROW, OTHER = (0, ALL, 1), (0x50, 0xFFFFFFF0, 0x800000)


class Spoiled(unittest.TestCase):
    """The program says the same of the bytes."""

    def at(self, data):
        """The byte at which the package refuses; None where it reads an image."""
        try:
            decode(data)
        except ValueError as error:
            word, kind, at = str(error).partition(":")[0].split(" ")
            self.assertEqual((word, kind), ("bad", "image"))
            return int(at)
        return None

    def compared(self, data):
        """What the program says, and that the package says so too."""
        verdict = check(Job(Machine(4, 2)), {}, data)
        self.assertIsInstance(verdict, (Right, OtherMachine, BadImage))
        self.assertEqual(self.at(data), verdict.at if isinstance(verdict, BadImage) else None, data.hex())
        return verdict

    def test_one_fault_each(self):
        for data, at in (
            (b"", 0), (b"SPN", 0), (b"SPNX\1", 0), (b"SPNT\2", 4), (b"SPNT\1", 5), (image(0, 1, 0), 5), (image(65, 1, 0), 5), (image(1, 65, 0), 6),
            (image(4, 2, 2), 7), (image(4, 2, 0)[:9], 8), (image(2, 1, 0, *[chip(0, 0, ROW)] * 3), 8), (image(4, 2, 0) + b"\0", 10),
            (image(4, 2, 0, chip(4, 0, ROW)), 10), (image(4, 2, 0, chip(3, 2, ROW)), 11), (image(4, 2, 0, chip(3, 1)), 12),
            (image(4, 2, 0, chip(0, 0, *[ROW] * 1025)), 12), (image(4, 2, 0, chip(1, 0, ROW), chip(1, 0, ROW)), 27),
            (image(4, 2, 0, chip(1, 0, ROW), chip(0, 1, ROW)), 27), (image(4, 2, 0, chip(0, 0, ROW, (0x51, 0xFFFFFFF0, 1))), 30),
            (image(4, 2, 0, chip(0, 0, (0, ALL, 0))), 22), (image(4, 2, 0, chip(0, 0, (0, ALL, 1 << 24))), 22),
            (image(4, 2, 0, chip(0, 0, (1, 0, 0)))[:22], 18), (image(4, 2, 0, chip(0, 0, ROW, ROW))[:-1], 34), (image(5, 7, 0), None), (image(4, 2, 1), None),
        ):
            verdict = self.compared(data)
            self.assertEqual(self.at(data), at)
            self.assertEqual(isinstance(verdict, BadImage), at is not None)

    def test_each_byte_spoiled_and_each_end_cut_off(self):
        dice = random.Random(1)
        data = image(4, 2, 0, chip(0, 1, ROW, OTHER), chip(2, 0, OTHER))
        self.assertEqual(self.compared(data), Right())
        for at in range(len(data)):
            for byte in {0, 1, 255, data[at] ^ 1 << dice.randrange(8)} - {data[at]}:
                self.compared(data[:at] + bytes([byte]) + data[at + 1:])
            self.compared(data[:at])

    def test_an_image_of_the_program(self):
        data = (EXAMPLES / "image.report").read_bytes()
        found = decode(bytearray(data))
        self.assertEqual((found.width, found.height, found.wrap, found.data, found.rows), (4, 1, False, data, 2))
        self.assertEqual(found.tables[3, 0].rows, (Row(0, ALL, 0x80),))

    def test_numbers_without_room(self):
        for machine, rows, told in (
            (Machine(256, 1), {}, "encode: machine has the number 256, which is none of 8 bits"),
            (Machine(1, -1), {}, "encode: machine has the number -1"),
            (Machine(1, 1), {(0, 0): [(0, 2**32, 1)]}, r"encode: tables\[\(0, 0\)\]\[0\] has the number 4294967296, which is none of 32 bits"),
            (Machine(1, 1), {(0, 256): [ROW]}, r"encode: tables\[\(0, 256\)\] has the number 256"),
            (Machine(1, 1), {(0, 0): [ROW] * 65536}, r"encode: tables\[\(0, 0\)\] has the number 65536, which is none of 16 bits"),
        ):
            with self.assertRaisesRegex(ValueError, told):
                encode(machine, rows)


if __name__ == "__main__":
    unittest.main()
