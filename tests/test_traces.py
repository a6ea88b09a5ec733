"""Tests that tests/traces holds what tools/traces.py and peer's camrun write."""
import os
import subprocess
import sys
import unittest

ROOT = os.path.dirname(os.path.dirname(os.path.abspath(__file__)))
sys.path.insert(0, os.path.join(ROOT, "tools"))

from traces import TRACES

FOLDER = os.path.join(ROOT, "tests", "traces")
CAMRUN = os.path.join(ROOT, "peer", "target", "release", "camrun")


def contents(name):
    with open(os.path.join(FOLDER, name), "rb") as file:
        return file.read()


class Stored(unittest.TestCase):
    def test_traces(self):
        for name, make in TRACES.items():
            self.assertTrue(contents(name + ".trace") == make(), name)

    def test_nothing_else_is_stored(self):
        expected = {name + end for name in TRACES for end in (".trace", ".report")}
        self.assertEqual(set(os.listdir(FOLDER)) - {"README.md", "carton_line.names"}, expected)

    def test_each_has_its_line_in_the_list(self):
        lines = contents("README.md").decode()
        for name in TRACES:
            self.assertEqual(lines.count("| %s |" % name), 1, name)

    def test_example_of_document_01(self):
        self.assertEqual(contents("example.report"), b"1 10 0 0001 0000\n2 1023 0 0000 0000\n")

    def test_every_refusal_that_camrun_prints(self):
        printed = {line for name in TRACES for line in contents(name + ".report").split(b"\n") if line[:1] in (b"r", b"b")}
        self.assertEqual(printed, {b"refused 3", b"refused 5", b"refused 6", b"refused 7", b"refused 8", b"bad"})

    @unittest.skipUnless(os.path.exists(CAMRUN), "peer is not built")
    def test_reports(self):
        for name in TRACES:
            done = subprocess.run([CAMRUN], input=contents(name + ".trace"), capture_output=True)
            self.assertTrue(done.stdout == contents(name + ".report"), name)


if __name__ == "__main__":
    unittest.main()
