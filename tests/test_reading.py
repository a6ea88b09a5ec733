"""docs/READING.md names definitions, theorems, calls and edits that are there."""
import glob
import os
import re
import unittest

ROOT = os.path.join(os.path.dirname(os.path.abspath(__file__)), "..")
CRATES = set(os.listdir(os.path.join(ROOT, "crates")))


def read(path):
    with open(path, encoding="utf-8") as file:
        return file.read()


def all_of(pattern):
    return "\n".join(read(path) for path in glob.glob(os.path.join(ROOT, pattern), recursive=True))


def section(title):
    text = read(os.path.join(ROOT, "docs", "READING.md"))
    return text.split("\n## " + title + "\n", 1)[1].split("\n## ", 1)[0]


def section_before(title):
    return read(os.path.join(ROOT, "docs", "READING.md")).split("\n## " + title + "\n", 1)[0]


def quoted(text):
    """The names in a text, each part of a path by itself."""
    return {name for words in re.findall(r"`([^`]+)`", text) for name in re.findall(r"[A-Za-z][\w-]*", words) if "/" not in words}


def named(text):
    """The names in a table's rows."""
    return quoted("\n".join(line for line in text.splitlines() if line.startswith("|")))


def declared(text):
    """The names that a text declares: in specs and proofs what is `pub`, in code functions, types with their cases and fields, constants, modules."""
    antt = re.findall(r"^ *(?:(?:abbrev|unfoldable) )?pub (?:(?:record|data) )?([A-Za-z][\w′-]*)(?= [:({])", text, re.MULTILINE)
    code = re.findall(r"^ *(?:pub )?(?:extern \"C\" )?(?:fn|struct|enum|const|mod|impl) (\w+)", text, re.MULTILINE)
    parts = re.findall(r"^ +(?:pub (\w+): .*|([A-Z]\w*)(?:\(.*\))?),$", text, re.MULTILINE)
    return set(antt) | set(code) | {name for pair in parts for name in pair}


class Names(unittest.TestCase):
    def assert_declared(self, names, text):
        self.assertEqual(sorted(names - declared(text) - CRATES), [])

    def test_the_clauses_of_01_name_definitions_of_the_rules(self):
        names = named(section("01 clause by clause"))
        self.assertGreater(len(names), 100)
        self.assert_declared(names, all_of("crates/rules/specs/*.antt") + all_of("crates/rules/src/*.rt"))

    def test_the_statements_name_theorems(self):
        names = quoted(section("The statements that matter"))
        self.assertIn("every_output", names)
        code = "".join(all_of("crates/%s/src/*.rt" % crate) for crate in ["engine", "card", "trace"])
        theorems = named(section("The statements that matter"))
        self.assert_declared(theorems, all_of("crates/rules/proofs/*.antt") + code)
        self.assert_declared(names - theorems, all_of("crates/rules/*/*.antt") + all_of("crates/trace/proofs/*.antt"))

    def test_the_words_of_the_statements_are_those_beside_the_theorems(self):
        rows = [line.split("|") for line in section_before("The crates").splitlines() if line.startswith("| ") and "`" in line.split("|")[2]]
        self.assertGreaterEqual(len(rows), 9)
        for _, files, words, _ in rows:
            text = "\n".join(read(os.path.join(ROOT, "crates/rules/proofs", file.strip() + ".antt")) for file in files.split(","))
            self.assertEqual(sorted(quoted(words) - declared(text)), [], files)

    def test_each_call_names_its_function_and_its_edits(self):
        edits = {os.path.splitext(os.path.basename(path))[0] for path in glob.glob(os.path.join(ROOT, "crates/*/must-fail/*.edit"))}
        code = all_of("crates/*/src/*.rt") + all_of("crates/rules/specs/*.antt")
        for title in ["The public calls", "The exported calls"]:
            rows = [line for line in section(title).splitlines() if re.match(r"\| [`a-z]", line) and "`" in line]
            self.assertGreaterEqual(len(rows), 6)
            for row in rows:
                names = named(row)
                self.assertGreaterEqual(len(names & edits), 2, row)
                self.assert_declared(names - edits, code)

    def assert_a_request_names_what_is_there(self, title, crates, sentences_least, theorems_least):
        """A request of 02 in crates of its own: definitions, calls with at least two edits each, every edit, theorems."""
        of = lambda pattern: "".join(all_of("crates/%s/%s" % (crate, pattern)) for crate in crates)
        edits = {os.path.splitext(os.path.basename(path))[0] for crate in crates for path in glob.glob(os.path.join(ROOT, "crates", crate, "must-fail", "*.edit"))}
        sentences, calls, theorems = section(title).split("\n|---")[1:]
        self.assertGreater(len(named(sentences)), sentences_least)
        self.assert_declared(named(sentences), of("specs/*.antt"))
        for row in [line for line in calls.splitlines() if any("`%s::" % crate in line for crate in crates)]:
            self.assertGreaterEqual(len(named(row) & edits), 2, row)
        self.assertEqual(edits - named(calls), set())
        self.assert_declared(named(calls) - edits, of("src/*.rt") + of("specs/*.antt"))
        self.assertGreater(len(named(theorems)), theorems_least)
        self.assert_declared(named(theorems), of("proofs/*.antt"))

    def test_the_serial_link_names_definitions_calls_edits_and_theorems(self):
        self.assert_a_request_names_what_is_there("The serial link", ["df1"], 15, 15)

    def test_traces_stored_by_column_name_definitions_calls_edits_and_theorems(self):
        self.assert_a_request_names_what_is_there("Traces stored by column", ["columns", "trace_columns"], 15, 15)

    def test_the_history_names_definitions(self):
        self.assert_declared(named(section("The history, sentence by sentence")), all_of("crates/rules/specs/*.antt") + all_of("crates/rules/src/*.rt"))


if __name__ == "__main__":
    unittest.main()
