"""Read and write."""

import array
import random
import unittest

from support import PAGE, InAFolder, famsync


class Ranges(InAFolder):
    pages, files = 64, ("a=200000", "b=5000")

    def test_random_ranges(self):
        volume, expected = self.opened(), bytearray(200000)
        some = random.Random(1)
        for _ in range(60):
            begin = some.randrange(200000)
            end = min(200000, begin + some.choice([0, 1, 8, 9, 4096, 65536, 65537, 140000]))
            value = some.getrandbits(8 * (end - begin) + 8).to_bytes(end - begin + 1, "big")[1:]
            volume.write("a", begin, value)
            expected[begin:end] = value
            self.assertEqual(volume.read("a", begin, end - begin), value)
            before = max(0, begin - 3)
            self.assertEqual(volume.read("a", before, begin - before), expected[before:begin])
        self.assertEqual(volume.read("a"), expected)
        self.assertEqual(volume.read("a", 150000), expected[150000:])

    def test_the_end_of_a_file(self):
        volume = self.opened()
        volume.write("b", 4999, b"7")
        reads = (((4998,), b"\0" + b"7"), ((4998, 2), b"\0" + b"7"), ((4999, 100), b"7"), ((5000,), b""))
        reads += (((5000, 100), b""), (((1 << 64) - 1, 1 << 40), b""), ((0, 0), b""))
        for place, value in reads:
            self.assertEqual(volume.read("b", *place), value)
        for offset, value in ((4999, b"ab"), (5000, b"a"), ((1 << 64) - 1, b"ab")):
            with self.assertRaises(famsync.Invalid) as caught:
                volume.write("b", offset, value)
            self.assertEqual(caught.exception.done, 0)
        volume.write("b", 9000, b"")
        self.assertEqual(volume.read("b", 4999), b"7")

    def test_what_may_be_written(self):
        volume = self.opened()
        memory = volume.memory("b")
        memory[0:4] = b"1234"
        for value in (b"1234", bytearray(b"1234"), memoryview(b"12345678")[:4], memoryview(b"1a2b3c4d")[::2]):
            volume.write("a", 0, value)
            self.assertEqual(volume.read("a", 0, 5), b"1234\0")
        volume.write("a", 8, array.array("q", [1, -1]))
        self.assertEqual(volume.read("a", 8, 16), (1).to_bytes(8, "little") + b"\xff" * 8)
        volume.write("a", 5000, memory.view())
        self.assertEqual(volume.read("a", 5000, 5), b"1234\0")
        for value in ("1", 1, None):
            self.assertRaises(TypeError, volume.write, "a", 0, value)

    def test_plain_memory_of_the_same_file(self):
        volume = self.opened()
        volume.write("b", 10, b"before")
        with volume.memory("b") as memory:
            self.assertEqual((memory[10:16], memory.dirty), (b"before", 0))
            memory[12] = 7
            volume.write("b", 5, b"again")
            self.assertEqual((volume.read("b", 5, 11), memory[5:16]), (b"againbe\7ore",) * 2)
            self.assertEqual((memory.dirty, volume.commit()), (1, 1))
            volume.write("b", 0, b"gone")
        self.assertEqual(volume.read("b", 0, 16), b"\0\0\0\0\0againbe\7ore")

    def test_all_at_once(self):
        volume = self.opened()
        volume.write("a", 0, b"z" * 200000)
        self.assertEqual(volume.commit(), 1)
        volume.write("a", 0, b"y" * 200000)
        volume.close()
        with famsync.open("v.img") as volume:
            self.assertEqual(volume.read("a"), b"z" * 200000)

    def test_reads_of_more_pages_than_a_commit_has(self):
        self.make(8, "a=200000")
        volume = self.opened()
        self.assertEqual(volume.read("a"), bytes(200000))
        for page in range(0, 48, 8):
            volume.write("a", page * PAGE, bytes([page]) * (8 * PAGE))
            volume.commit()
        wanted = b"".join(bytes([page]) * (8 * PAGE) for page in range(0, 48, 8))
        self.assertEqual(volume.read("a", 0, 48 * PAGE), wanted)


if __name__ == "__main__":
    unittest.main()
