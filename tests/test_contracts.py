"""What the prover does not look for: a premise that nobody meets, and an edit of a proof, which shows nothing of the program."""
import glob
import os
import re
import unittest

ROOT = os.path.join(os.path.dirname(os.path.abspath(__file__)), "..")


def read(path):
    with open(path, encoding="utf-8") as file:
        return file.read()


def files(pattern):
    found = sorted(glob.glob(os.path.join(ROOT, pattern), recursive=True))
    return [(os.path.relpath(path, ROOT), read(path)) for path in found]


def code(text):
    """A source file without its comments."""
    return re.sub(r"//[^\n]*|/\*.*?\*/", "", text, flags=re.DOTALL)


class Contracts(unittest.TestCase):
    def test_no_function_has_a_premise(self):
        sources = files("crates/*/src/**/*.rt")
        self.assertGreater(len(sources), 30)
        self.assertEqual([path for path, text in sources if re.search(r"\brequires\b", code(text))], [])

    def test_each_edit_is_of_the_program_or_of_a_definition(self):
        edits = files("crates/*/must-fail/*.edit")
        self.assertGreater(len(edits), 100)
        for path, text in edits:
            places = re.findall(r"^file:\s*(.*?)\s*$", text, flags=re.MULTILINE)
            self.assertTrue(places, path)
            for place in places:
                self.assertRegex(os.path.normpath(place), r"^(src|specs)/", path)


if __name__ == "__main__":
    unittest.main()
