"""Files of chunks from strangers: no other answer comes of bytes that were changed or cut, and no crash of any."""
import os
import unittest
from ctypes import byref, c_size_t

import flcol
from chunk_files import InFolder
from flcol._buffers import address, new_bytes
from flcol._chunks import records_in, words_of
from flcol._interface import Chunk as Record
from flcol._library import call


def with_foot(content, change):
    """A file with another foot than its own, whose checksum is right."""
    file = flcol.File(content)
    records = [Record.from_buffer_copy(record) for record in file._records]
    end, number = records[-1].offset + records[-1].size, file._number
    number = change(records) or number
    room, written = new_bytes(96 * len(records) + 91), c_size_t()
    with address(room) as at:
        call("file_finish", number, records_in(records), len(records), end, at, len(room), byref(written))
    return content[:end] + room[: written.value]


def checksum(content):
    """CRC-32C."""
    value = 2**32 - 1
    for byte in content:
        value ^= byte
        for _ in range(8):
            value = value >> 1 ^ (0x82F63B78 if value & 1 else 0)
    return value ^ 2**32 - 1


def hand_made(number, *chunks):
    """A file of containers of sorted items without nulls, of each the length, the least and the greatest item, and the sum."""
    content, body = b"FLC2", number.to_bytes(8, "little")
    for container, *said in chunks:
        content += bytes(-len(content) % 64)
        place = len(content), len(container), checksum(container)
        body += b"".join(word.to_bytes(8, "little") for word in (*place, said[0], 0, 1))
        body += b"".join(word.to_bytes(16, "little") for word in said[1:])
        content += container
    return content + body + checksum(body).to_bytes(8, "little") + (len(body) + 8).to_bytes(8, "little") + b"FLC2"


class FromStrangers(InFolder):
    """Whatever the bytes of a file, an error or the true answer; and what only a stranger writes is found by verify."""

    ITEMS = [3, None, 5, 7, 200, 201, None]

    def small(self):
        for dtype, scheme in (("uint8?", "for(bitpacked)"), ("int16?", "primitive")):
            with flcol.Writer(self.path, dtype) as writer:
                writer.append(flcol.array(self.ITEMS[:4], dtype=dtype).encode(scheme))
                writer.append(flcol.array(self.ITEMS[4:], dtype=dtype).encode("rle"))
            yield dtype, self.path.read_bytes()

    def asked(self, content):
        """Whether a file is one, which is then asked for all that it can do."""
        try:
            file = flcol.File(content)
        except (flcol.Error, MemoryError):
            return False
        for asked in (
            lambda: file[:].to_list() == self.ITEMS, lambda: (file.sum(), file.min_max(), len(file), file.null_count) == (416, (3, 201), 7, 2),
            lambda: file.count_where("<", 6) == 2, lambda: file.where(">", 199).to_list() == [200, 201], lambda: file[5] == 201,
            lambda: file.verify() is None, lambda: file.take([6, 0]).to_list() == [None, 3],
        ):  # fmt: skip
            try:
                assert asked()
            except flcol.Error as error:
                assert error.name == "BadChunk", error
        return True

    def test_every_cut(self):
        for name, content in self.small():
            for end in range(len(content)):
                with self.subTest(name, end=end), self.assertRaises(flcol.Error):
                    flcol.File(content[:end])
            self.assertTrue(self.asked(content))
            for more in (b"\0", bytes(64), b"FLC2"):
                self.assertRaises(flcol.Error, flcol.File, content + more)

    def test_every_byte_changed(self):
        for name, content in self.small():
            files, first = 0, flcol.File(content).chunks[0].offset
            for at, byte in enumerate(content):
                for other in (byte ^ 1, byte ^ 128, byte ^ 255):
                    with self.subTest(f"{name}, byte {at} is {other}"):
                        files += self.asked(content[:at] + bytes([other]) + content[at + 1 :])
            self.assertGreater(files, first)

    def test_a_foot_that_lies(self):
        def lies(**said):
            def change(records):
                for name, value in said.items():
                    setattr(records[0], name, words_of(value) if name in ("least", "greatest", "sum") else value)

            return change

        def of_other_type(records):
            return 4 + 16

        for name, content in self.small():
            flcol.File(with_foot(content, lambda records: None)).verify()
            for said in (("len", 5), ("len", 2**60), ("null_count", 0), ("is_sorted", 1), ("least", 0), ("greatest", 100), ("sum", 17)):
                lie = dict([said])
                with self.subTest(name, lie=lie):
                    self.path.write_bytes(with_foot(content, lies(**lie)))
                    with self.assertRaisesRegex(flcol.Error, "BadStatistics"):
                        flcol.open(self.path, verify=True)
                    file = flcol.open(self.path)
                    if "len" in lie:
                        for asked in (file.__getitem__, file.chunk, lambda at: file[:], lambda at: file.where(">", 5), lambda at: file.take([at])):
                            self.assertRaisesRegex(flcol.Error, "BadStatistics", asked, 0)
                    else:
                        self.assertEqual(file[:].to_list(), self.ITEMS)
            for wrong in (of_other_type, lambda records: 3 + 16):
                if wrong(None) != flcol.File(content)._number:
                    try:
                        file = flcol.File(with_foot(content, wrong))
                    except flcol.Error as error:
                        self.assertEqual(error.name, "BadField")
                        continue
                    self.assertRaisesRegex(flcol.Error, "BadStatistics|TypeMismatch", file.verify)
                    self.assertRaisesRegex(flcol.Error, "BadStatistics", lambda: file[0])

    def test_a_chunk_of_many_items(self):
        many, few = bytes(flcol.constant(5, 2**60, "uint8")), bytes(flcol.array([6, 7], dtype="uint8"))
        file = flcol.File(hand_made(0, (many, 2**60, 5, 5, 5 * 2**60), (few, 2, 6, 7, 13)))
        self.assertEqual((len(file), file.sum(), file[2**60 - 1], file[-1]), (2**60 + 2, 5 * 2**60 + 13, 5, 7))
        self.assertEqual(file[2**59 : 2**59 + 3].to_list(), [5, 5, 5])
        self.assertEqual((file.count_where(">", 5), file.count_where("<", 6), file.where(">", 5).to_list()), (2, 2**60, [6, 7]))
        for wanted in (lambda: file[:], lambda: file.where("<", 6), file.verify):
            self.assertRaises(MemoryError, wanted)
        most = bytes(flcol.constant(0, 2**63 - 1, "uint8"))
        self.assertEqual(len(flcol.File(hand_made(0, (most, 2**63 - 1, 0, 0, 0)))), 2**63 - 1)
        with self.assertRaisesRegex(flcol.Error, "LengthOverflow"):
            flcol.File(hand_made(0, *[(most, 2**63 - 1, 0, 0, 0)] * 3))
        self.path.write_bytes(bytes(flcol.constant(5, 2**60, "uint8")))
        file = flcol.open(self.path)
        self.assertEqual((len(file), file.sum(), file[2**59], file.min_max()), (2**60, 5 * 2**60, 5, (5, 5)))
        self.assertEqual((file.count_where(">", 5), file.count_where("<", 6)), (0, 2**60))

    def test_a_length_is_compared_before_items_are_decoded(self):
        many = bytes(flcol.constant(5, 2**60, "uint8"))
        self.assertRaisesRegex(flcol.Error, "BadStatistics", flcol.File(hand_made(0, (many, 2, 5, 5, 10))).verify)

    def test_a_file_that_becomes_shorter(self):
        file = flcol.open(self.written(range(100_000), "uint32", chunk=5000))
        self.assertEqual(file[99_999], 99_999)
        os.truncate(self.path, 5000)
        for asked in (file.sum, lambda: file[0], lambda: file[:], lambda: file.where("<", 77), file.verify, lambda: file.nbytes):
            with self.assertRaisesRegex(flcol.Error, "shorter"):
                asked()
        file.close()


if __name__ == "__main__":
    unittest.main()
