"""Tests of the program frame, crates/frame/out/frame: by pipes, and over a pseudo-terminal pair as over a real line.

    (cd crates/frame && rt run </dev/null) && python3 -m unittest tests/test_frame.py

Expected bytes are worked out here from document 02, request 3/14.
"""
import contextlib
import os
import select
import subprocess
import termios
import tty
import unittest

ROOT = os.path.dirname(os.path.dirname(os.path.abspath(__file__)))
FRAME = os.path.join(ROOT, "crates", "frame", "out", "frame")
LIMIT = 20

# Every byte value, in strings of an allowed length, and the strings at which a line or a reader could go wrong.
EVERY_VALUE = [bytes(range(0, 244)), bytes(range(244, 256)), bytes(range(12, 256))]
LINES = EVERY_VALUE + [b"\x10" * 244, b"\x10", b"\xf0", b"\x00", b"\x11\x13\x03\x04\x0d\x0a\x7f\xff"]


def frame_of(data):
    """The frame that document 02 gives to the data."""
    return b"\x10\x02" + data.replace(b"\x10", b"\x10\x10") + b"\x10\x03" + bytes([-sum(data) % 256])


def run(arguments, given=None, line_in=None, line_out=subprocess.PIPE):
    """What the program writes to standard output and to standard error."""
    done = subprocess.run([FRAME] + arguments, input=given, stdin=line_in, stdout=line_out, stderr=subprocess.PIPE, timeout=LIMIT)
    return done.stdout, done.stderr


class Pipes(unittest.TestCase):
    def test_every_length_there_and_back(self):
        for length in range(1, 245):
            data = bytes((7 * k + length) % 256 for k in range(length))
            self.assertEqual(run(["write"], data), (frame_of(data), b""), length)
            self.assertEqual(run(["read"], frame_of(data)), (data, b""), length)

    def test_the_example_of_the_readme(self):
        self.assertEqual(run(["write"], b"\x01\x10A"), (bytes.fromhex("10 02 01 10 10 41 10 03 ae"), b""))

    def test_refused_data(self):
        for data in [b"", bytes(245), bytes(246), bytes(100000)]:
            self.assertEqual(run(["write"], data), (b"", b"refused 15\n"), len(data))

    def test_refused_frames(self):
        good = frame_of(b"\x01\x10A")
        for given in [b"", good[:-1], good[1:], good + b"\x00", b"\x00" + good, good + good, frame_of(b""), frame_of(bytes(245)), frame_of(bytes(489)), bytes(100000)]:
            self.assertEqual(run(["read"], given), (b"", b"refused 17\n"), given[:12])

    def test_usage(self):
        for command in [[], ["w"], ["writer"], ["read", "read"], [""], ["reads"]]:
            self.assertEqual(run(command, b"x"), (b"", b"usage: frame write | frame read\n"), command)


@contextlib.contextmanager
def raw_line():
    """A pseudo-terminal pair in raw mode, the card's end and the laptop's: what one end writes, the other end reads."""
    card, laptop = (open(end, "r+b", buffering=0) for end in os.openpty())
    with card, laptop:
        tty.setraw(laptop)
        yield card, laptop


def end_when_quiet(port):
    """As `stty raw min 0 time 5` on a serial port: a reading ends when the line has been quiet for half a second."""
    modes = termios.tcgetattr(port)
    modes[6][termios.VMIN] = 0
    modes[6][termios.VTIME] = 5
    termios.tcsetattr(port, termios.TCSANOW, modes)


class Line(unittest.TestCase):
    def test_every_byte_value_is_sent(self):
        self.assertEqual(set(b"".join(EVERY_VALUE)), set(range(256)))

    def test_from_the_laptop_to_the_card(self):
        for data in LINES:
            with self.subTest(data=data[:8], length=len(data)), raw_line() as (card, laptop):
                reader = subprocess.Popen([FRAME, "read"], stdin=card, stdout=subprocess.PIPE, stderr=subprocess.PIPE)
                self.assertEqual(run(["write"], data, line_out=laptop), (None, b""))
                # With the laptop's end closed the card's reading ends.
                laptop.close()
                self.assertEqual(reader.communicate(timeout=LIMIT), (data, b""))

    def test_from_the_card_to_the_laptop(self):
        for data in LINES:
            with self.subTest(data=data[:8], length=len(data)), raw_line() as (card, laptop):
                end_when_quiet(laptop)
                self.assertEqual(run(["write"], data, line_out=card), (None, b""))
                self.assertTrue(select.select([laptop], [], [], LIMIT)[0])
                self.assertEqual(run(["read"], line_in=laptop), (data, b""))

    def test_a_quiet_line_is_no_frame(self):
        with raw_line() as (_, laptop):
            end_when_quiet(laptop)
            self.assertEqual(run(["read"], line_in=laptop), (b"", b"refused 17\n"))


if __name__ == "__main__":
    unittest.main()
