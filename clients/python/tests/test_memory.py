"""Plain memory: what is stored to it by each kind of buffer, and when it can be closed."""

import array
import ctypes
import gc
import struct
import sys
import unittest

from support import PAGE, InAFolder, famsync, run_python

try:
    import numpy
except ImportError:
    numpy = None

ADDRESS = 0x220000000000

IS_BUFFER = sys.version_info >= (3, 12)


class Stores(InAFolder):
    def setUp(self):
        super().setUp()
        self.volume = self.opened()
        self.memory = self.volume.memory("a")

    def kept(self, begin, end):
        """What the next session finds, where this one commits what it stored."""
        self.volume.commit()
        self.volume.close()
        with famsync.open("v.img") as volume:
            return volume.read("a", begin, end - begin)

    def test_keys(self):
        memory = self.memory
        self.assertEqual(len(memory), 20000)
        memory[0:5] = b"hello"
        memory[-1] = 7
        memory[10:16:2] = b"abc"
        self.assertEqual((memory[0], memory[-1], memory[19999], memory[1:4], memory[5:5]), (104, 7, 7, b"ell", b""))
        self.assertEqual((memory[10:16], memory[4:0:-2]), (b"a\0b\0c\0", b"ol"))
        for place in (20000, -20001):
            self.assertRaises(IndexError, lambda: memory[place])
            self.assertRaises(IndexError, memory.__setitem__, place, 1)
        self.assertRaises(ValueError, memory.__setitem__, slice(0, 2), b"123")
        self.assertRaises(ValueError, memory.__setitem__, 0, 256)
        self.assertRaises(TypeError, memory.__setitem__, 0, b"1")
        self.assertRaises(TypeError, memory.__setitem__, slice(0, 1), "1")
        self.assertRaises(TypeError, lambda: memory["a"])
        self.assertEqual(self.kept(0, 5), b"hello")

    def test_struct(self):
        with self.memory.view() as view:
            struct.pack_into("<qq", view, PAGE - 8, -1, 93)
            self.assertEqual(struct.unpack_from("<q", view, PAGE), (93,))
            self.assertRaises(struct.error, struct.pack_into, "<q", view, 19993, 1)
        self.assertEqual(self.kept(PAGE - 8, PAGE + 8), b"\xff" * 8 + b"\x5d" + bytes(7))

    def test_view(self):
        with self.memory.view() as view:
            self.assertEqual((view.format, view.shape, view.readonly, view.contiguous), ("B", (20000,), False, True))
            view[0], view[1:3] = 1, b"ab"
            with view[8:24].cast("q") as numbers:
                numbers[1] -= 2
        self.assertEqual(bytes(self.memory)[:4], b"\1ab\0")
        self.assertEqual(self.kept(0, 24), b"\1ab" + bytes(13) + b"\xfe" + b"\xff" * 7)

    @unittest.skipUnless(IS_BUFFER, "before Python 3.12 only a class made in C is a buffer")
    def test_the_memory_is_a_buffer(self):
        struct.pack_into("<q", self.memory, 0, 5)
        with memoryview(self.memory) as view:
            self.assertEqual((view[0], view.nbytes, view.readonly), (5, 20000, False))
        with open("copy", "wb") as file:
            file.write(self.memory)
        with open("copy", "rb") as file:
            self.assertEqual(file.read(), bytes(self.memory))

    @unittest.skipIf(IS_BUFFER, "from Python 3.12 on the memory is a buffer")
    def test_the_memory_is_no_buffer(self):
        self.assertRaises(TypeError, memoryview, self.memory)

    def test_other_buffers(self):
        self.memory[0:16] = array.array("q", [1, 2])
        self.memory[16:20] = memoryview(b"a-b-c-d-")[::2]
        self.memory[20:22] = bytearray(b"xy")
        counter = ctypes.c_int64.from_buffer(self.memory.view(), 32)
        counter.value -= 1
        del counter
        self.memory[40:48] = self.memory[32:40]
        found = self.kept(0, 48)
        self.assertEqual(found[:32], struct.pack("<qq6s10x", 1, 2, b"abcdxy"))
        self.assertEqual(found[32:], b"\xff" * 16)

    @unittest.skipIf(numpy is None, "there is no numpy here")
    def test_numpy(self):
        balance = numpy.frombuffer(self.memory.view(), "<i8")
        self.assertEqual(balance.shape, (2500,))
        balance[3] -= 7
        balance[9] += 7
        self.assertRaises(BufferError, self.memory.close)
        other = numpy.frombuffer(self.memory.view(), "<i8", 16)
        self.assertEqual((other[3], other.sum()), (-7, 0))
        del other, balance
        self.assertEqual(self.kept(72, 80), b"\7" + bytes(7))

    def test_dirty(self):
        self.assertEqual(self.memory.dirty, 0)
        self.memory[0] = self.memory[PAGE] = self.memory[19999] = 1
        self.assertEqual((self.memory.dirty, self.volume.commit(), self.memory.dirty), (3, 1, 0))

    def test_touch(self):
        """The kernel stores to pages that were opened ahead."""
        with open("bytes", "wb") as file:
            file.write(b"x" * 3 * PAGE)
        self.memory.touch(PAGE, 2 * PAGE)
        self.assertEqual(self.memory.dirty, 2)
        with open("bytes", "rb", buffering=0) as file, self.memory.view() as view:
            self.assertEqual(file.readinto(view[PAGE : 3 * PAGE]), 2 * PAGE)
        self.memory.touch(19999, 0)
        self.memory.touch()
        self.assertEqual(self.memory.dirty, 5)
        for offset, count in ((-1, 1), (20001, 0), (0, 20001), (19999, 2), (5, -1)):
            self.assertRaises(famsync.Argument, self.memory.touch, offset, count)
        self.assertEqual(self.kept(PAGE - 1, PAGE + 1), b"\0x")

    def test_touch_of_more_pages_than_a_commit_has(self):
        self.volume.close()
        with famsync.open("v.img", frames=3) as volume:
            memory = volume.memory("a")
            self.assertRaises(famsync.NoFrame, memory.touch)
            memory.touch(0, 3 * PAGE)
            self.assertEqual((memory.dirty, volume.commit(), memory.dirty), (3, 1, 0))

    def test_the_kernel_stores_where_something_was_stored(self):
        with open("bytes", "wb") as file:
            file.write(b"hello")
        with open("bytes", "rb", buffering=0) as file, self.memory.view() as view:
            with self.assertRaises(OSError) as caught:
                file.readinto(view)
            self.assertEqual(caught.exception.errno, 14)  # EFAULT
            view[0] = 0
            self.assertEqual(file.readinto(view), 5)
        self.assertEqual(self.kept(0, 5), b"hello")


class Closes(InAFolder):
    def setUp(self):
        super().setUp()
        self.volume = self.opened()

    def test_each_use_of_one_that_is_closed(self):
        memory = self.volume.memory("a")
        memory[0] = 1
        memory.close()
        uses = [lambda: memory[0], lambda: memory[0:1], lambda: memory.__setitem__(0, 1), lambda: len(memory)]
        uses += [lambda: memory.dirty, memory.view, memory.__enter__, lambda: memory.__setitem__(slice(0, 1), b"1")]
        for use in uses:
            self.assertRaisesRegex(ValueError, "the memory of 'a' is closed", use)
        memory.close()
        self.assertIn("closed", repr(memory))
        with self.volume.memory("a") as again:
            self.assertEqual(again[0], 0)

    @unittest.skipUnless(IS_BUFFER, "before Python 3.12 only a class made in C is a buffer")
    def test_the_buffer_of_one_that_is_closed(self):
        memory = self.volume.memory("a")
        memory.close()
        self.assertRaises(ValueError, memoryview, memory)
        self.assertRaises((ValueError, TypeError), struct.pack_into, "<q", memory, 0, 1)

    def test_it_is_not_closed_under_a_buffer(self):
        memory = self.volume.memory("a")
        of_memory = (lambda: memoryview(memory), lambda: ctypes.c_int64.from_buffer(memory)) if IS_BUFFER else ()
        for take in (memory.view, lambda: memory.view()[8:16].cast("q"),
                     lambda: ctypes.c_int64.from_buffer(memory.view()), *of_memory):
            taken = take()
            self.assertRaises(BufferError, memory.close)
            self.assertRaises(BufferError, self.volume.close)
            memory[0] = 1
            self.assertEqual(len(memory), 20000)
            del taken
        self.assertGreater(self.volume.commit(), 0)
        memory.close()

    def test_it_is_closed_once_the_buffer_is_released(self):
        with self.volume.memory("a") as memory:
            view = memory.view()
            try:
                memory.close()
            except BufferError:
                view.release()
                memory.close()
        self.assertRaises(ValueError, lambda: view[0])

    def test_views_of_one_that_is_dropped(self):
        view = self.volume.memory("a").view()
        gc.collect()
        view[0] = 5
        self.assertEqual(self.volume.commit(), 1)
        self.assertRaises(famsync.Overlap, self.volume.memory, "a")
        self.assertRaises(BufferError, self.volume.close)
        view.release()
        with self.volume.memory("a") as memory:
            self.assertEqual(memory[0], 5)

    def test_an_error_on_its_way_is_kept(self):
        with self.assertRaises(ZeroDivisionError):
            with self.volume.memory("a") as memory:
                view = memory.view()
                view[0] = 1 // 0
        view.release()
        memory.close()

    def test_a_with_whose_memory_is_used_after_it(self):
        memory = self.volume.memory("a")
        with self.assertRaises(BufferError):
            with memory:
                view = memory.view()
        view.release()

    def test_many(self):
        for number in range(300):
            with self.volume.memory("a") as memory:
                self.assertEqual(memory[0], number % 256)
                memory[0] = (number + 1) % 256
                self.volume.commit()


class OtherFaults(InAFolder):
    BEGIN = "import ctypes, faulthandler, famsync\nvolume = famsync.open('v.img')\n"
    STORE = "volume.memory('a')[0] = 1\nprint('stored', flush=True)\n"

    def ends(self, code):
        ended = run_python(self.BEGIN + code)
        return ended.returncode, ended.stdout, "Fatal Python error: Segmentation fault" in ended.stderr

    def test_a_fault_elsewhere_ends_the_process(self):
        self.assertEqual(self.ends(self.STORE + "ctypes.string_at(8)"), (-11, "stored\n", False))

    def test_faulthandler_that_is_enabled_before(self):
        enable = "faulthandler.enable()\n"
        self.assertEqual(self.ends(enable + self.STORE), (0, "stored\n", False))
        self.assertEqual(self.ends(enable + self.STORE + "ctypes.string_at(8)"), (-11, "stored\n", True))

    def test_faulthandler_that_is_enabled_or_disabled_after(self):
        memory = "memory = volume.memory('a')\n"
        store = "memory[0] = 1\nprint('stored')\n"
        self.assertEqual(self.ends(memory + "faulthandler.enable()\n" + store), (-11, "", True))
        self.assertEqual(
            self.ends("faulthandler.enable()\n" + memory + "faulthandler.disable()\n" + store), (-11, "", False)
        )


class AtAnAddress(InAFolder):
    def test_it_is_there_in_each_session(self):
        for number in range(3):
            with self.opened() as volume:
                memory = volume.memory("a", address=ADDRESS)
                begin = ctypes.addressof(ctypes.c_char.from_buffer(memory.view()))
                self.assertEqual((begin, memory[7]), (ADDRESS, number))
                memory[7] += 1
                volume.commit()

    def test_what_is_refused(self):
        volume = self.opened()
        with volume.memory("a", address=ADDRESS):
            for address in (1, PAGE, ADDRESS, ADDRESS + 1, ADDRESS + 4 * PAGE, (1 << 64) - PAGE):
                self.assertRaises(famsync.Address, volume.memory, "b", address=address)
            for address in (-1, 1 << 64):
                self.assertRaises(famsync.Argument, volume.memory, "b", address=address)
            self.assertRaises(famsync.Overlap, volume.memory, "a", address=2 * ADDRESS)
        volume.memory("b", address=ADDRESS).close()

    def test_the_file_is_read_in(self):
        for options in ({"resident": True}, {"budget": 1}, {"resident": False, "budget": 0}):
            with self.opened(**options) as volume:
                memory = volume.memory("a")
                memory[0] += 1
                volume.commit()
        with self.opened() as volume:
            self.assertEqual(volume.memory("a")[0], 3)
        self.assertRaises(famsync.Argument, famsync.open, "v.img", budget=-1)

    def test_as_an_array(self):
        """What NumPy asks for, in each version of Python: a view that is writable, and keeps the memory open."""
        for readonly in (False, True):
            with self.opened(readonly=readonly) as volume:
                memory = volume.memory("a")
                interface = memory.__array_interface__
                view = interface.pop("data")
                self.assertEqual(interface, {"version": 3, "typestr": "|u1", "shape": (len(memory),)})
                self.assertEqual((len(view), view.readonly), (len(memory), readonly))
                if not readonly:
                    view[0] = 7
                    self.assertEqual(memory[0], 7)
                self.assertRaises(BufferError, memory.close)
                del view
                memory.close()
                self.assertRaises(ValueError, lambda: memory.__array_interface__)


class Rollbacks(InAFolder):
    pages, files = 3, ("a=20000/40000", "b=5000")

    def test_stores_are_undone(self):
        for resident in (False, True):
            with self.opened(resident=resident) as volume:
                a, b = volume.memory("a"), volume.memory("b")
                a[0:5], b[4999] = b"hello", 7
                volume.commit()
                a[0:20000], b[0] = bytes(range(250)) * 80, 9
                volume.write("a", 3, b"other")
                volume.rollback()
                self.assertEqual((a[0:6], a[19999], b[0], b[4999], a.dirty), (b"hello\0", 0, 0, 7, 0))

    def test_writes_and_lengths_are_undone(self):
        with self.opened() as volume:
            a = volume.memory("a")
            a[0] = 1
            volume.write("b", 0, b"x")
            volume.rollback()
            self.assertEqual((a[0], volume.read("b", 0, 1), volume.stat().staged), (0, b"\0", 0))
            a.close()
            length = volume.files["a"]
            for other in (10, 0, length + 5):
                volume.set_length("a", other)
                volume.rollback()
                self.assertEqual(volume.files["a"], length)
                with volume.memory("a") as a:
                    a[length - 1] = 7
                    volume.rollback()
                    self.assertEqual(a[length - 1], 0)
        self.assertRaises(ValueError, volume.rollback)
        with self.opened(readonly=True) as volume:
            self.assertRaises(famsync.ReadOnly, volume.rollback)

    def test_memory_of_a_length_that_is_undone(self):
        with self.opened() as volume:
            length = volume.files["a"]
            volume.set_length("a", length + 5000)
            a, b = volume.memory("a"), volume.memory("b")
            a[length + 4999] = b[0] = 7
            with a.view() as view:
                self.assertRaises(BufferError, volume.rollback)
                self.assertEqual((view[length + 4999], b[0]), (7, 7))
            left = a.view()
            del a
            self.assertRaises(BufferError, volume.rollback)
            self.assertEqual(left[length + 4999], 7)
            left.release()
            a = volume.memory("a")
            volume.rollback()
            self.assertRaises(ValueError, lambda: a[0])
            self.assertEqual((volume.files["a"], b[0]), (length, 0))
            self.assertRaises(famsync.Invalid, volume.set_length, "a", 1 << 40)
            with volume.memory("a") as a:
                volume.rollback()
                self.assertEqual(len(a), length)
            volume.set_length("a", length + 5000)
            volume.commit()
            a = volume.memory("a")
            a[0] = 1
            volume.rollback()
            self.assertEqual((len(a), a[0]), (length + 5000, 0))

    def test_transactions(self):
        volume = self.opened()
        a = volume.memory("a")
        with volume.transaction():
            a[0] = 1
        self.assertEqual((volume.acknowledged, a[0]), (1, 1))
        for error in (ZeroDivisionError, KeyboardInterrupt):
            with self.assertRaises(error), volume.transaction():
                a[0] = a[9000] = 2
                raise error
            self.assertEqual((volume.acknowledged, a[0], a[9000]), (1, 1, 0))
        with self.assertRaises(famsync.NoFrame), volume.transaction():
            a[:] = b"x" * 20000
        self.assertEqual((volume.acknowledged, a[0:2], a.dirty), (1, b"\1\0", 0))
        with self.assertRaises(ZeroDivisionError), volume.transaction():
            volume.write("b", 0, b"x")
            raise ZeroDivisionError
        self.assertEqual((volume.acknowledged, volume.read("b", 0, 1)), (1, b"\0"))
        volume.set_length("b", 5000)
        grown = volume.memory("b").view()
        with self.assertRaises(BufferError) as raised, volume.transaction():
            raise ZeroDivisionError
        self.assertIsInstance(raised.exception.__context__, ZeroDivisionError)
        self.assertEqual(grown[4999], 0)
        grown.release()


class KernelTracking(InAFolder):
    def test_the_kernel_stores(self):
        self.assertRaises(famsync.Argument, famsync.open, "v.img", kernel_tracking=True, resident=True)
        try:
            volume = self.opened(kernel_tracking=True)
        except famsync.Tracking as error:
            self.skipTest(str(error))
        memory = volume.memory("a")
        with open("/dev/zero", "rb", buffering=0) as zeros, memory.view() as view:
            self.assertEqual(zeros.readinto(view[:100]), 100)
        memory[9000] = 7
        self.assertEqual((memory.dirty, volume.commit(), memory.dirty), (2, 1, 0))
        memory[9000] = 8
        volume.rollback()
        self.assertEqual(memory[9000], 7)


if __name__ == "__main__":
    unittest.main()
