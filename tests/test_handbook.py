"""docs/HANDBOOK.md against the definitions, the header and the programs: numbers of words, bits, ranges, refusals, sections and sizes.

The tables are read from the handbook, the numbers that they must have from crates/*/specs and crates/card/include. A table or a definition that is not
found fails the test.
"""
import os
import re
import shutil
import struct
import subprocess
import tempfile
import unittest

ROOT = os.path.dirname(os.path.dirname(os.path.abspath(__file__)))


def read(*path):
    with open(os.path.join(ROOT, *path), encoding="utf-8") as file:
        return file.read()


HANDBOOK = read("docs", "HANDBOOK.md")
# Its sentences, however they are wrapped.
SENTENCES = " ".join(HANDBOOK.split())
HEADER = read("crates", "card", "include", "chimneyrye.h")


def rules(name):
    return read("crates", "rules", "specs", name + ".antt")


def cells(line):
    return [cell.strip().replace("\\|", "|") for cell in re.split(r"(?<!\\)\|", line.strip())[1:-1]]


def tables():
    """Every table of the handbook: the heading that it stands under, its first column's title, and its rows below that as lists of cells."""
    found, heading, lines = [], "", HANDBOOK.splitlines()
    for number, line in enumerate(lines):
        if line.startswith("#"):
            heading = line.lstrip("# ")
        if line.startswith("|---"):
            rows = []
            for row in lines[number + 1 :]:
                if not row.startswith("|"):
                    break
                rows.append(cells(row))
            found.append((heading, cells(lines[number - 1])[0], rows))
    return found


def table(title, heading=None):
    """The rows of the one table whose first column has this title, under the heading where one is given."""
    found = [rows for under, first, rows in tables() if first == title and heading in (None, under)]
    if len(found) != 1:
        raise AssertionError("%d tables with the first column %r" % (len(found), title))
    return found[0]


def constant(text, name):
    """The number that `name = N` gives in a definition."""
    found = re.search(r"^%s = (0x[0-9a-f]+|\d+)$" % re.escape(name), text, re.M)
    if not found:
        raise AssertionError("no definition %s = N" % name)
    return int(found[1], 0)


def cases(text, name):
    """The numbers of a definition by cases, `name Case = N`."""
    found = dict(re.findall(r"^%s (\w+) = (\d+)$" % re.escape(name), text, re.M))
    if not found:
        raise AssertionError("no definition %s Case = N" % name)
    return {case: int(number) for case, number in found.items()}


def clause(text, name):
    """The right side of the definition with this name."""
    found = re.search(r"^%s\b[^\n:]*=(.*?)(?=\n\n|\Z)" % re.escape(name), text, re.M | re.S)
    if not found:
        raise AssertionError("no definition %s" % name)
    return re.sub(r"--[^\n]*", "", found[1])


def named_bits(text, name):
    """The bits of a list of bits, those given by a name looked up."""
    return {int(part) if part.isdigit() else bit_number(text, part) for part in re.findall(r"\w+", clause(text, name).replace("[]", ""))}


def bit_number(text, name):
    return constant(text if re.search(r"^%s = " % name, text, re.M) else rules("Cycle"), name)


def span(words):
    """The numbers of `7`, `4–0` or `46–99`."""
    ends = [int(end) for end in words.split("–")]
    return set(range(min(ends), max(ends) + 1))


def bits_of(rows, name):
    """The bits that the row of a bit table with this name has."""
    (row,) = [row for row in rows if row[1] == name]
    return span(row[0])


def used_bits(rows):
    return set().union(*(span(row[0]) for row in rows if row[1]))


def spare_bits(rows):
    return set().union(set(), *(span(row[0]) for row in rows if not row[1]))


def numbers(words):
    return [int(number) for number in re.findall(r"\d+", words)]


class Words(unittest.TestCase):
    def test_setup_command(self):
        text, rows = rules("SetupWords"), table("bit of word 0")
        names = {"Preset": "preset_bit", "CDir": "direction_bit", "TResp": "response_bit", "SLCINT": "interrupt_bit", "MType": "independent_bit", "ClrErr": "clear_bit", "SDTMT": "transmit_bit"}
        for shown, defined in names.items():
            self.assertEqual(bits_of(rows, shown), {bit_number(text, defined)}, shown)
        self.assertEqual(used_bits(rows), named_bits(text, "setup_command_bits"))
        self.assertEqual(len(rows), len(names))

    def test_setup_words_and_their_ranges(self):
        text, rows = rules("SetupWords"), {row[0]: row for row in table("word", "M0: setup words")}
        self.assertEqual(set().union(*(span(word) for word in rows)), set(range(20)))
        places = {"top": "1", "preset": "2", "states": "11", "multiplier": "8", "divider": "9", "code": "10"}
        for field, word in places.items():
            self.assertRegex(clause(text, "setup_of"), r"\b%s = word file %s\b" % (field, word))
        self.assertRegex(clause(text, "setup_of"), r"md1 = record \{ low = word file 4; high = word file 5 \}")
        self.assertRegex(clause(text, "setup_of"), r"md2 = record \{ low = word file 6; high = word file 7 \}")
        self.assertIn("scale factor", rows["1"][1])
        self.assertIn("preset", rows["2"][1])
        self.assertIn("offset", rows["3"][1])
        self.assertIn("multiplier", rows["8"][1])
        self.assertIn("divisor", rows["9"][1])
        self.assertIn("code", rows["10"][1])
        self.assertIn("active states", rows["11"][1])
        least, most = numbers(rows["1"][2])
        self.assertEqual(clause(text, "sf_bad").strip(), "ltb sf %d || ltb %d sf" % (least, most))
        for word in "4567":
            self.assertEqual(clause(text, "detector_bad").strip(), "ltb %d low || ltb %d high || (eqb low high && not (eqb low 0))" % (numbers(rows[word][2])[1], numbers(rows[word][2])[1]))
        most_multiplier, (least_divisor, most_divisor), most_code = numbers(rows["8"][2])[1], numbers(rows["9"][2]), numbers(rows["10"][2])[1]
        self.assertEqual(least_divisor, 1)
        self.assertEqual([numbers(rows[word][2])[0] for word in "4 5 6 7 8 10".split()], [0] * 6)
        self.assertEqual(
            clause(text, "scalars_bad").strip(), "ltb %d multiplier || eqb divisor 0 || ltb %d divisor || ltb %d code" % (most_multiplier, most_divisor, most_code)
        )
        first, last = numbers([word for word, row in rows.items() if row[1] == "reserved"][0])
        self.assertIn("any_word %d %d file" % (first, last), clause(text, "setup_reserved"))

    def test_setup_status_bits(self):
        text, rows = rules("SetupWords"), table("bit of word 100")
        order = re.findall(r"sf_bad|word file [23]\b|detector_bad|scalars_bad", clause(text, "setup_errors").replace("(sf_judged (word file 1))", "").replace("sf_bad (word file 1)", "sf_bad"))
        self.assertEqual(order, ["sf_bad", "word file 2", "word file 3", "detector_bad", "detector_bad", "scalars_bad"])
        for bit, name in enumerate(["SFErr", "PSTErr", "OFErr", "MD1Err", "MD2Err", "TSErr"]):
            self.assertEqual(bits_of(rows, name), {bit}, name)
        self.assertEqual({1 << bit for bit in bits_of(rows, "SCWErr")}, {constant(text, "reserved_status")})
        self.assertEqual({1 << bit for bit in bits_of(rows, "MsgIgn")}, {constant(rules("Cycle"), "ignored_status")})
        words = {row[0]: row[3] for row in table("word", "M0: setup words")}
        self.assertEqual([words[word] for word in "0 1 2 3 4 5 6 7 8 9 10 11 12–19".split()], "15 0 1 2 3 3 4 4 5 5 5 none 15".split())

    def test_group_words(self):
        text = rules("GroupWords")
        rows = {row[0]: row[1] for row in table("word", "M0: group words")}
        base, step = map(int, re.search(r"word file \((\d+) \+ (\d+) \* n \+ k\)", text).groups())
        for n in range(1, 7):
            self.assertEqual(rows["%d–%d" % (base + step * n, base + step * n + step - 1)], "group %d" % n)
        self.assertEqual(set().union(*(span(word) for word in rows)), set(range(20, 100)))
        reserved = re.findall(r"any_word (\d+) (\d+) file", clause(text, "group_reserved"))
        self.assertEqual({"–".join(dict.fromkeys(pair)) for pair in reserved}, {word for word, what in rows.items() if what.startswith("reserved")})
        self.assertIn("word file 20", clause(text, "group_reserved"))
        self.assertEqual({int(bit) for bit in re.findall(r"bit (\d+)", rows["20"])}, named_bits(text, "group_command_bits"))

    def test_group_control_word(self):
        text, rows = rules("GroupWords"), table("bit of a group's control word")
        for shown, defined in {"FCITyp": "first_cycle_bit", "GPTyp": "type_bit", "GPUsed": "used_bit"}.items():
            self.assertEqual(bits_of(rows, shown), {constant(text, defined)}, shown)
        self.assertEqual(clause(text, "control_quantity").strip(), "c % " + str(1 << len(bits_of(rows, "quantity"))))
        self.assertEqual(clause(text, "control_mode").strip(), "c / %d %% %d" % (1 << min(bits_of(rows, "mode")), 1 << len(bits_of(rows, "mode"))))
        self.assertEqual(used_bits(rows), named_bits(text, "group_control_bits"))
        self.assertEqual(used_bits(rows) | spare_bits(rows), set(range(16)))
        bad = clause(text, "group_program_bad")
        meaning = {row[1]: numbers(row[2]) for row in rows}
        self.assertEqual(meaning["quantity"], [1, int(re.search(r"ltb (\d+) \(control_quantity", bad)[1])])
        self.assertEqual(meaning["mode"], [0, int(re.search(r"ltb (\d+) \(control_mode", bad)[1])])

    def test_group_status_bits(self):
        text, rows = rules("GroupWords"), table("bit of word 110")
        order = re.findall(r"leb sf|group_program_bad|pair_bad", clause(text, "group_bits"))
        self.assertEqual(order, ["leb sf", "group_program_bad", "pair_bad"])
        for bit, name in enumerate(["GOFErr", "GPgErr", "GCSErr"]):
            self.assertEqual(bits_of(rows, name), {bit}, name)
        self.assertEqual({1 << bit for bit in bits_of(rows, "GCWErr")}, {constant(rules("SetupWords"), "reserved_status")})
        self.assertEqual({1 << bit for bit in bits_of(rows, "MsgIgn")}, {constant(rules("Cycle"), "ignored_status")})
        block = {row[0]: row[3] for row in table("word of a group's block")}
        self.assertEqual(block, {"0": "1", "1": "2", "2": "2", "3": "0"})
        self.assertIn("leb sf (group_word file n 3)", clause(text, "group_bits"))
        self.assertIn("pair_bad sf (group_word file n 1) (group_word file n 2)", clause(text, "group_bits"))

    def test_limit_words(self):
        text = rules("LimitWords")
        rows = {row[0]: row[1] for row in table("word", "M1: limit words")}
        step, less = map(int, re.search(r"^block_at n = (\d+) \* n - (\d+)$", text, re.M).groups())
        self.assertIn("%d × n − %d" % (step, less), rows["2–609"])
        self.assertEqual(span("2–609"), {word for n in range(1, 33) for word in range(step * n - less, step * n - less + 19)})
        for row in table("first word of the block of output"):
            first = int(row[0])
            self.assertEqual([int(word) for word in row[1:]], [step * n - less for n in range(first, first + 8)])
        reserved = re.findall(r"any_word (\d+) (\d+) file", clause(text, "limit_reserved"))
        self.assertEqual({"–".join(dict.fromkeys(pair)) for pair in reserved}, {word for word, what in rows.items() if what.startswith("reserved")})
        self.assertEqual(set().union(*(span(word) for word in rows)), set(range(630)))
        self.assertEqual({int(bit) for bit in re.findall(r"bit (\d+)", rows["0"])}, named_bits(text, "limit_command_bits"))

    def test_limit_control_word(self):
        text, rows = rules("LimitWords"), table("bit of an output's control word")
        self.assertEqual(bits_of(rows, "enable"), {constant(text, "enable_bit")})
        self.assertEqual(clause(text, "control_type").strip(), "c % " + str(1 << len(bits_of(rows, "type"))))
        self.assertEqual(clause(text, "control_detector").strip(), "c / %d %% %d" % (1 << min(bits_of(rows, "detector")), 1 << len(bits_of(rows, "detector"))))
        self.assertEqual(used_bits(rows), named_bits(text, "limit_control_bits"))
        self.assertEqual(used_bits(rows) | spare_bits(rows), set(range(16)))

    def test_limit_block(self):
        text, rows = rules("LimitWords"), {row[0]: row[1:] for row in table("word of an output's block")}
        self.assertEqual(set().union(*(span(word) for word in rows)), set(range(19)))
        action = clause(text, "action_of")
        self.assertIn("quantity = word b 5; count = word b 6", action)
        self.assertIn("duration = word b 5", action)
        self.assertIn("quantity", rows["5"][1])
        self.assertIn("ON count", rows["6"][1])
        self.assertIn("duration", rows["5"][2])
        self.assertIn("onadvance = advance_of (word b 1)", clause(text, "limit_of_block"))
        self.assertEqual([cell.split(" (")[0] for cell in rows["1"] + rows["2"]], ["ON advance"] * 3 + ["OFF advance"] * 3)
        self.assertIn("(word b (2 * k + 3)) (word b (2 * k + 4))", clause(text, "block_pair_bad"))
        self.assertEqual([rows[word][0] for word in "3456"], ["ON 1", "OFF 1", "ON 2", "OFF 2"])
        self.assertEqual(rows["7–18"][0], "ON 3, OFF 3 to ON 8, OFF 8")
        ranges = {row[0]: row[1] for row in table("value", "M1: limit words")}
        self.assertEqual(numbers(ranges["advance"])[0], numbers(ranges["advance"])[1])
        self.assertEqual(numbers(ranges["duration T"])[0], 1)
        self.assertEqual(clause(text, "advance_bad").strip(), "ltb %d (nat_abs (signed_word w))" % numbers(ranges["advance"])[1])
        self.assertIn("eqb (word b 5) 0 || ltb %d (word b 5)" % numbers(ranges["duration T"])[1], clause(text, "length_bad"))
        low, shown, shown_hex = re.search(r"−(\d+) is (\d+) \(([0-9A-F]+)h\)", ranges["advance"]).groups()
        self.assertEqual((65536 - int(low), int(shown_hex, 16)), (int(shown), int(shown)))
        self.assertIn("leb 4 (count_of", clause(text, "fifth_timed"))
        self.assertIn("At most four real and four virtual outputs may be timed.", SENTENCES)

    def test_limit_status_bits(self):
        text, rows = rules("LimitWords"), table("bit of word 630")
        order = re.findall(r"\w+_bad|\w+_bit", clause(text, "block_bits"))
        self.assertEqual(order, ["control_bad", "advance_bad", "advance_bad", "setpoint_bad", "length_bit"])
        self.assertIn("cond (unassigned p n) 1", clause(text, "limit_bits"))
        begins = ["Group Mode", "control word", "an advance", "a setpoint", "duration"]
        self.assertEqual([row[1].startswith(begin) for row, begin in zip(rows, begins)], [True] * 5)
        self.assertEqual([row[0] for row in rows], "0 1 2 3 4 14 15".split())
        self.assertIn("Bits 5 to 13 read 0.", SENTENCES)
        self.assertEqual((constant(rules("Cycle"), "ignored_status"), constant(rules("SetupWords"), "reserved_status")), (1 << 14, 1 << 15))

    def test_nudge_word(self):
        text, rows = rules("Nudge"), table("bit of the nudge word")
        for shown, defined in {"ON": "on_bit", "OFF": "off_bit", "down": "down_bit", "ClrErr": "nudge_clear_bit"}.items():
            self.assertEqual(bits_of(rows, shown), {constant(text, defined)}, shown)
        self.assertEqual(bits_of(rows, "I/DTMT"), {constant(rules("Cycle"), "transmit_bit")})
        self.assertEqual(clause(text, "nudge_output").strip(), "w % " + str(1 << len(bits_of(rows, "output"))))
        self.assertEqual(clause(text, "nudge_pair").strip(), "w / %d %% %d" % (1 << min(bits_of(rows, "pair")), 1 << len(bits_of(rows, "pair"))))
        self.assertEqual(spare_bits(rows), {int(bit) for bit in re.findall(r"bit w (\d+)", clause(text, "nudge_output_bad"))})
        self.assertEqual(used_bits(rows) | spare_bits(rows), set(range(16)))
        transmit, on, off, down = (1 << constant(*of) for of in [(rules("Cycle"), "transmit_bit"), (text, "on_bit"), (text, "off_bit"), (text, "down_bit")])
        self.assertIn("So %04Xh moves ON of pair 2 of output 3 up by one count, and %04Xh ON and OFF of it down" % (transmit + on + 32 + 2, transmit + on + off + down + 32 + 2), SENTENCES)
        self.assertIn("a nudge %04Xh, then 0" % (transmit + (1 << constant(text, "nudge_clear_bit"))), SENTENCES)


    def test_bits_stand_in_one_row_each(self):
        for title in ["bit of a group's control word", "bit of an output's control word", "bit of the nudge word"]:
            self.assertEqual(sum(len(span(row[0])) for row in table(title)), 16, title)

    def test_what_sets_a_bit(self):
        reasons = {(title, row[0]): row[-1] for title in ["bit of word 0", "bit of word 100", "bit of word 110", "bit of word 630"] for row in table(title)}
        setup, group, limit = rules("SetupWords"), rules("GroupWords"), rules("LimitWords")
        self.assertEqual(numbers(reasons["bit of word 0", "5"]), [0, int(re.search(r"cond fast \d+ (\d+)", clause(rules("Motion"), "window_time"))[1]), 1, int(re.search(r"cond fast (\d+)", clause(rules("Motion"), "window_time"))[1])])
        self.assertEqual(numbers(reasons["bit of word 100", "0"]), numbers(clause(setup, "sf_bad")))
        self.assertEqual(numbers(reasons["bit of word 100", "3"])[1], numbers(clause(setup, "detector_bad"))[0])
        self.assertIn("words %s to %s" % re.search(r"any_word (\d+) (\d+)", clause(setup, "setup_reserved")).groups(), reasons["bit of word 100", "15"])
        bad = clause(group, "group_program_bad")
        self.assertIn("quantity 0 or over %s" % re.search(r"ltb (\d+) \(control_quantity", bad)[1], reasons["bit of word 110", "1"])
        self.assertIn("mode %d or 7" % (int(re.search(r"ltb (\d+) \(control_mode", bad)[1]) + 1), reasons["bit of word 110", "1"])
        self.assertIn("word 20 is set, or word 21 or one of words 46 to 99", reasons["bit of word 110", "15"])
        self.assertIn("other_bit group_command_bits (word file 20) || any_word 21 21 file || any_word 46 99 file", clause(group, "group_reserved"))
        self.assertIn("word 0 is set, or word 1 or one of words 610 to 629", reasons["bit of word 630", "15"])
        self.assertIn("other_bit limit_command_bits (word file 0) || any_word 1 1 file || any_word 610 629 file", clause(limit, "limit_reserved"))
        self.assertIn("type 3, detector 3", reasons["bit of word 630", "1"])
        self.assertIn("eqb (control_detector c) 3 || eqb (control_type c) 3", clause(limit, "control_bad"))
        self.assertIn("duration 0 or over %s;" % re.search(r"ltb (\d+) \(word b 5\)", clause(limit, "length_bad"))[1], reasons["bit of word 630", "4"])
        for title in ["bit of word 100", "bit of word 110", "bit of word 630"]:
            self.assertIn("refused with %d;" % cases(rules("Cycle"), "number_of")["Ignored"], reasons[title, "14"])

    def test_types_and_detectors(self):
        rows = {row[1]: row[2] for row in table("bit of an output's control word")}
        kinds = {kind: name.lower() for kind, name in re.findall(r"eqb a\.kind (\d)\) \(?(\w+)", clause(rules("Variants"), "switch_of"))}
        types = re.findall(r"eqb \(block_type b\) (\d)\) \(record \{ kind = (\d);", clause(rules("LimitWords"), "action_of"))
        self.assertEqual(rows["type"], ", ".join("%s %s" % (number, kinds[kind]) for number, kind in types))
        anded = dict(re.findall(r"eqb n (\d)\) (\w+)", clause(rules("Variants"), "anded_of")))
        self.assertEqual(anded, {"0": "Neither", "1": "First", "2": "Second"})
        self.assertEqual(rows["detector"], "0 none, 1 ANDed with motion detector 1, 2 with motion detector 2")


class Cycles(unittest.TestCase):
    def test_files_command_and_status_words(self):
        text, rows = rules("FileCycle"), {row[0]: row[1:] for row in table("cycle")}
        lengths = {"m0_length": constant(rules("Cycle"), "m0_length"), "m1_length": constant(rules("Cycle"), "m1_length")}
        commands, statuses = cases(text, "command_at"), cases(text, "status_at")
        for name, count in {"setup": 10, "group": 10, "limit": 20}.items():
            case = name.capitalize() + "Cycle"
            of_file = lengths[re.search(r"^file_length %s = (\w+)$" % case, text, re.M)[1]]
            file, words, command, status = rows[name]
            self.assertEqual(numbers(words), [commands[case], commands[case] + cases(rules("Trace"), "section_count")[case] - 1], name)
            self.assertEqual(numbers(file)[-1], of_file, name)
            self.assertEqual(int(command), commands[case], name)
            self.assertEqual(numbers(status), [statuses[case], statuses[case] + count - 1], name)
        self.assertIn("M0 of %d words" % lengths["m0_length"], SENTENCES)
        self.assertIn("M1 of %d words" % lengths["m1_length"], SENTENCES)

    def test_number_of_status_words(self):
        text = rules("FileCycle")
        self.assertRegex(text, r"(?m)^status_words SetupCycle .*∷ replicate 8 0$")
        self.assertRegex(text, r"(?m)^status_words LimitCycle .*∷ replicate 18 0$")
        self.assertIn("Words 102 to 109 are 0.", SENTENCES)
        self.assertIn("Words 118 and 119 are 0.", SENTENCES)
        self.assertIn("Words 632 to 649 are 0.", SENTENCES)

    def test_errors_and_their_refusals(self):
        defined = {refusal: re.search(r"(\w+) = true", record)[1] for refusal, record in re.findall(r"^error_of (\w+) e = record \{(.*)\}$", rules("Cycle"), re.M)}
        of_number = cases(rules("Cycle"), "number_of")
        self.assertEqual(len(defined), 5)
        shown = {row[2].strip("`").split(".")[-1]: numbers(row[1])[-1] for row in table("error")}
        self.assertEqual(shown, {field: of_number[refusal] for refusal, field in defined.items()})
        for field in shown:
            self.assertRegex(HEADER.split("chimneyrye_errors;")[0].rsplit("typedef struct", 1)[1], r"bool %s;" % field)

    def test_refusals(self):
        defined = {**cases(rules("Cycle"), "number_of"), **cases(read("crates", "df1", "specs", "Frame.antt"), "number_of"), **cases(read("crates", "columns", "specs", "Section.antt"), "number_of")}
        self.assertEqual({row[1].strip("`"): int(row[0]) for row in table("number")}, defined)

    def test_status_words_in_the_refusals(self):
        changes, statuses = {row[0]: row[3] + row[4] for row in table("number")}, cases(rules("FileCycle"), "status_at")
        for number, case, count in [("6", "SetupCycle", 10), ("7", "GroupCycle", 10), ("8", "LimitCycle", 20)]:
            first = statuses[case]
            self.assertIn("words %d to %d" % (first, first + count - 1), changes[number])
            self.assertIn("read word 100," if number == "6" else "read words %d and %d," % (first + 1, first), changes[number])
        self.assertIn("the first one %04Xh" % constant(rules("Cycle"), "ignored_status"), changes["5"])
        for number in ["9", "10", "11"]:
            self.assertIn("C000h", changes[number])

    def test_limits_in_the_refusals(self):
        causes = {row[0]: row[2] for row in table("number")}
        spare = [int(bit) for bit in re.findall(r"bit w (\d+)", clause(rules("Nudge"), "nudge_output_bad"))]
        self.assertIn("one of bits %d to %d is set" % (spare[0], spare[-1]), causes["9"])
        self.assertIn("does not have %d words" % constant(rules("Cycle"), "m0_length"), causes["1"])
        self.assertIn("does not have %d words" % constant(rules("Cycle"), "m1_length"), causes["2"])
        known = re.search(r"one_of \((\d+) ∷ (\d+) ∷ (\d+) ∷ \[\]\)", clause(rules("Variants"), "model_known")).groups()
        self.assertIn("%s, %s, %s" % known, causes["3"])
        self.assertIn("cond group 6 32", clause(rules("Reader"), "reader_refusal"))
        self.assertIn("outside 1 to 6 or an output outside 1 to 32", causes["4"])
        self.assertIn("over %d," % constant(rules("Calls"), "raw_most"), causes["11"])
        most = int(re.search(r"^allowed n = nat_lt 0 n && nat_le n (\d+)$", read("crates", "df1", "specs", "Frame.antt"), re.M)[1])
        self.assertIn("of over %d" % most, causes["15"])
        self.assertIn("1 to %d data bytes" % most, causes["17"])
        self.assertIn("A frame has %d to %d bytes." % (1 + 5, 2 * most + 5), SENTENCES)
        words, least, samples = re.search(r"^is_section size = size % (\d+) == 0 && nat_le (\d+) \(samples_of size\) && nat_le \(samples_of size\) (\d+)$", read("crates", "columns", "specs", "Section.antt"), re.M).groups()
        self.assertEqual((words, least), ("9", "1"))
        self.assertIn("nine words for each of 1 to %s samples" % format(int(samples), ","), causes["18"])
        self.assertIn("in parts of %s, %s bytes," % (format(int(samples), ","), format(18 * int(samples), ",")), SENTENCES)


class Steps(unittest.TestCase):
    def test_modules(self):
        real, virtual = cases(rules("Variants"), "real_count"), cases(rules("Variants"), "virtual_count")
        rows = table("module")
        self.assertEqual([row[0] for row in rows], ["8511", "8512", "8513"])
        for number, shown, others in rows:
            self.assertEqual(0 if shown == "none" else numbers(shown)[1], real["M" + number])
            self.assertEqual(numbers(others), [17, 16 + virtual["M" + number]])

    def test_defaults(self):
        text, rows = clause(rules("Calls"), "default_setup"), {row[0]: row[1] for row in table("default")}
        self.assertIn("top = %d;" % (int(rows["SF"]) - 1), text)
        multiplier, divisor, code = numbers(rows["multiplier, divisor, decimal code"])
        self.assertIn("multiplier = %d; divider = %d; code = %d" % (multiplier, divisor - 1, code), text)
        self.assertIn("fast = false", text)
        self.assertEqual(rows["tachometer response"], "504 ms")

    def test_inputs(self):
        text, rows = rules("Motion"), {row[0]: row[1:] for row in table("input")}
        self.assertEqual(clause(text, "group_input n").strip(), "n")
        self.assertEqual(rows["group 1 to 6"], ["1 to 6", "%d to %d" % (1 + 16, 6 + 16)])
        for name, defined in {"LS Enable": "enable_input", "First Cycle": "first_cycle_input"}.items():
            number = constant(text, defined) + 1
            self.assertEqual(rows[name], [str(number), str(number + 16)])

    def test_modes(self):
        text, rows = rules("Groups"), table("mode")
        self.assertEqual([row[0] for row in rows], list("012345"))
        presets = set(re.findall(r"^presets Mode(\d) = true$", text, re.M))
        shown = {row[0] for row in rows if "shift" in row[1] or row[1] == "as in mode 1"}
        self.assertEqual(shown, presets)
        self.assertEqual({row[0] for row in rows if "offset" in row[1] or row[1] == "as in mode 0"}, set("012345") - presets)
        opens = dict(re.findall(r"^is_open Mode(\d) level opened = (\w+)$", text, re.M))
        self.assertEqual({row[0] for row in rows if row[2] == "always"}, {mode for mode, by in opens.items() if by == "true"})
        self.assertEqual({row[0] for row in rows if row[2] == "while its input is active"}, {mode for mode, by in opens.items() if by == "level"})
        offset = {row[0]: row[1] for row in table("word of a group's block")}["3"]
        self.assertEqual(offset, "group offset (modes %s) or group preset (modes %s)" % (", ".join(sorted(set("012345") - presets)), ", ".join(sorted(presets))))

    def test_sample(self):
        rows = table("word", "The sample")
        shown = [(int(row[0]), row[1].strip("`")) for row in rows]
        defined = re.findall(r"(\w+) = word_at bytes (\d+);", clause(rules("Trace"), "sample_at"))
        self.assertEqual(shown, [(int(place), field) for field, place in defined])
        self.assertEqual([name for _, name in shown], fields("sample"))
        self.assertEqual(numbers(rows[0][2]), [0, constant(rules("Calls"), "raw_most")])

    def test_answer(self):
        shown = [row[0].strip("`") for row in table("field of the header")]
        self.assertEqual(shown, fields("answer"))
        self.assertEqual(shown, re.findall(r"^  (\w+) = ", clause(rules("Switches"), "answer_of"), re.M))

    def test_speed(self):
        text, rows = rules("Motion"), {row[0]: row[1:] for row in table("value", "Speed, tachometer, detectors")}
        long_steps = re.search(r"cond fast (\d+) (\d+)", clause(text, "window_steps")).groups()
        times = re.search(r"cond fast (\d+) (\d+)", clause(text, "window_time")).groups()
        self.assertEqual(numbers(rows["c, for the advances"][0]), [constant(text, "short_steps"), constant(text, "short_steps") // 5])
        for name, steps, time in zip(["tenths with TResp 1", "tenths with TResp 0"], long_steps, times):
            self.assertEqual(numbers(rows[name][0]), [int(steps), int(time)])
            self.assertIn("× 600000 / (1024 × %s)" % time, rows[name][1])
        self.assertIn("nat_abs c * 600000) (1024 * window_time fast)", clause(text, "tenths_of"))
        most = int(re.search(r"cond \(ltb (\d+) \(tach_value", clause(text, "tach_shown"))[1])
        self.assertIn("Above %d it reads %d and TachOv is set" % (most, most), SENTENCES)
        self.assertEqual({row[0]: row[1] for row in table("field of the header")}["`tach`"], "tachometer, 0 to %d" % most)
        self.assertIn("(pos 245760)", clause(rules("Switches"), "advance_shift"))
        self.assertIn("s = a × c × SF / 245760", SENTENCES)
        self.assertEqual(clause(rules("Switches"), "timed_steps").strip(), "5 * t")
        self.assertIn("(5 × T steps)", SENTENCES)

    def test_tachometer_example(self):
        divisors = [3 * 10 ** (code + 1) for code in range(4)]
        self.assertEqual(table("code"), [["tachometer"] + [str((2 * 1000 * 2 + divisor) // (2 * divisor)) for divisor in divisors]])
        self.assertIn("(tenths * k.multiplier) (divisor k * 10 ^ (code_number (code_of k.code) + 1))", clause(rules("Motion"), "tach_value"))
        self.assertIn("tenths × multiplier / (divisor × 10^(code + 1)), rounded half up once", SENTENCES)

    def test_detectors(self):
        detects = clause(rules("Motion"), "detects")
        self.assertIn("not (eqb d.low 0 && eqb d.high 0)", detects)
        self.assertIn("cond (leb d.low d.high) (leb (10 * d.low) tenths && leb tenths (10 * d.high)) (leb tenths (10 * d.high) || leb (10 * d.low) tenths)", detects)
        shown = [["0/0", "never"], ["low ≤ high", "10 × low ≤ tenths ≤ 10 × high"], ["low > high", "tenths ≤ 10 × high or tenths ≥ 10 × low"]]
        self.assertEqual(table("motion detector"), shown)


class RackBus(unittest.TestCase):
    def test_bytes(self):
        text, rows = rules("Bus"), {row[0]: row[1:] for row in table("bytes")}
        words = [word.strip() for word in clause(text, "input_table").split("∷")[:-1]]
        shown = {"status_bits g x": "errors", "x.position.0": "Machine Position", "x.tach": "tachometer", "x.real": "real outputs", "x.virtuals": "virtual outputs", "x.inputs": "active real inputs"}
        for number, word in enumerate(words[:6]):
            row = rows["%d–%d" % (2 * number, 2 * number + 1)]
            self.assertEqual(row[0], str(number))
            self.assertTrue(row[1].startswith(shown[word]), word)
        self.assertEqual((words[6:], rows["12–15"]), (["0", "0"], ["6, 7", "0"]))
        self.assertEqual(constant(text, "table_bytes"), 2 * len(words))
        self.assertIn("interrupt request", rows[str(constant(text, "request_byte"))][1])
        self.assertIn("mask", rows[str(constant(text, "mask_byte"))][1])
        self.assertEqual(set().union(*(span(row) for row in rows)), set(range(constant(text, "mask_byte") + 1)))

    def test_bits_of_word_0(self):
        rows = table("bit of input word 0")
        self.assertEqual([row[0] for row in rows], [str(bit) for bit in range(16)])
        names = {"SUErr": "g.errors.setup", "GPErr": "g.errors.group", "LSErr": "g.errors.limit", "I/DNum": "g.errors.number", "I/DSet": "g.errors.setpoint", "MsgIgn": "g.ignored", "ModFlt": "false"}
        names |= {"TrFlt": "g.fault", "MD1": "x.md1", "MD2": "x.md2", "TachOv": "x.overflow", "": "false"}
        names |= {"I/DAck": "g.acknowledges.nudge", "SUAck": "g.acknowledges.setup", "GPAck": "g.acknowledges.group", "LSAck": "g.acknowledges.limit"}
        bits = re.search(r"bits\s*\((.*) ∷ \[\]\)", clause(rules("Bus"), "status_bits"), re.S)[1]
        self.assertEqual([names[row[1]] for row in rows], [" ".join(bit.split()) for bit in bits.split("∷")])
        self.assertEqual({row[1] for row in rows if row[2].startswith("never")}, {name for name, bit in names.items() if bit == "false"})

    def test_refused_offsets(self):
        text, causes = rules("Bus"), {row[0]: row[2] for row in table("number")}
        self.assertIn("offset over %d" % constant(text, "mask_byte"), causes["13"])
        self.assertIn("offset below %d" % constant(text, "table_bytes"), causes["14"])


class Traces(unittest.TestCase):
    def test_sections(self):
        counts, rows = cases(rules("Trace"), "section_count"), {row[0]: row[1:] for row in table("section")}
        self.assertEqual(list(rows), ["module", "setup", "group", "limit", "samples"])
        commands = cases(rules("FileCycle"), "command_at")
        for name in ["setup", "group", "limit"]:
            case = name.capitalize() + "Cycle"
            self.assertEqual(numbers(rows[name][0]), [0, counts[case]])
            self.assertEqual(numbers(rows[name][1])[:2], [commands[case], commands[case] + counts[case] - 1])
        self.assertIn("section_of bad_line (1 ∷ [])", clause(rules("Trace"), "report"))
        self.assertEqual(rows["module"][0], "1")

    def test_largest_trace(self):
        counts = cases(rules("Trace"), "section_count")
        largest = 2 * (2 + sum(1 + count for count in counts.values()) + 1 + 9 * 65535)
        self.assertIn("The largest whole trace has %s bytes" % format(largest, ","), SENTENCES)

    def test_the_example_in_bytes_is_the_stored_trace(self):
        with open(os.path.join(ROOT, "tests", "traces", "example.trace"), "rb") as file:
            stored = file.read()
        lines = re.findall(r"^    ((?:[0-9a-f]{2} )+) {2,}\S", HANDBOOK.split("## Traces and reports", 1)[1].split("## Traces stored by column", 1)[0], re.M)
        self.assertEqual(bytes.fromhex("".join(lines)), stored)
        listed = re.search(r"w = (\[1, 8513.*?\]) \+ \[0\] \* 8; .*<24H", HANDBOOK)[1]
        self.assertEqual(struct.pack("<24H", *numbers(listed), *[0] * 8), stored)
        self.assertIn("".join("    %s\n" % line for line in read("tests", "traces", "example.report").splitlines()), HANDBOOK)

    def test_where_the_samples_of_a_whole_trace_begin(self):
        at = 2 * (2 + sum(1 + count for count in cases(rules("Trace"), "section_count").values()) + 1)
        self.assertIn("begin after %s bytes" % format(at, ","), SENTENCES)
        self.assertEqual(set(re.findall(r"head -c (\d+)", HANDBOOK)), {str(at)})
        self.assertEqual(set(re.findall(r"tail -c \+(\d+)", HANDBOOK)), {str(at + 1)})

    def test_the_frame_of_the_example(self):
        data = bytes.fromhex("01 10 41")
        frame = b"\x10\x02" + data.replace(b"\x10", b"\x10\x10") + b"\x10\x03" + bytes([-sum(data) % 256])
        self.assertIn("`%s`" % frame.hex(" "), SENTENCES)


def fields(name):
    """The fields of a struct of the header, in order."""
    body = HEADER.split("} chimneyrye_%s;" % name)[0].rsplit("typedef struct {", 1)[1]
    body = re.sub(r"/\*.*?\*/", "", body, flags=re.S)
    return [field.split("[")[0] for line in re.findall(r"\w+ ([^;{]+);", body) for field in re.split(r",\s*", line)]


class Header(unittest.TestCase):
    def test_returned_numbers(self):
        defined = {name: int(number) for name, number in re.findall(r"^    (CHIMNEYRYE_\w+) = (\d+),?$", HEADER, re.M)}
        self.assertEqual({row[1].strip("`"): int(row[0]) for row in table("returned")}, defined)
        outcomes = dict(re.findall(r"^outcome_number (\w+) = (\d+)$", rules("Cycle"), re.M))
        self.assertEqual((defined["CHIMNEYRYE_IDLE"], defined["CHIMNEYRYE_ACCEPTED"]), (int(outcomes["Idle"]), int(outcomes["Accepted"])))
        of_number = cases(rules("Cycle"), "number_of")
        for refusal, number in of_number.items():
            name = "CHIMNEYRYE_" + re.sub(r"(?<=[a-z0-9])(?=[A-Z])", "_", refusal).upper()
            self.assertEqual(defined.get(name, number), number, name)
        self.assertEqual(set(defined.values()) - {0, 65535}, set(of_number.values()) - {4, 11, 12})

    def test_calls(self):
        declared = re.findall(r"^\w+ (chimneyrye_\w+)\(", HEADER, re.M)
        self.assertEqual([row[0].strip("`") for row in table("call", "The card from C")], declared)
        of_number = cases(rules("Cycle"), "number_of")
        returns = {row[0].strip("`"): set(numbers(row[1])) for row in table("call", "The card from C")}
        for name in ["setup", "group", "limit"]:
            length = re.search(r"^length_refusal %sCycle = (\w+)$" % name.capitalize(), rules("FileCycle"), re.M)[1]
            data = re.search(r"^data_refusal %sCycle = (\w+)$" % name.capitalize(), rules("FileCycle"), re.M)[1]
            self.assertEqual(returns["chimneyrye_" + name], {0, 65535, of_number["Ignored"], of_number[length], of_number[data]})
        self.assertEqual(returns["chimneyrye_nudge"], {0, 65535, of_number["Ignored"], of_number["NudgeOutput"], of_number["NudgeSetpoint"]})
        self.assertEqual(returns["chimneyrye_power_up"], {0, of_number["UnknownModule"]})
        self.assertEqual(returns["chimneyrye_read_byte"], {0, of_number["ByteOffset"]})
        self.assertEqual(returns["chimneyrye_write_byte"], {0, of_number["ByteOffset"], of_number["ReadOnlyByte"]})

    def test_fields_that_the_text_names(self):
        declared = {field for name in ["configuration", "errors", "sample", "answer", "module"] for field in fields(name)}
        for path in re.findall(r"`(configuration(?:\.\w+)+)`", HANDBOOK):
            self.assertEqual(set(path.split(".")) - declared, set(), path)

    @unittest.skipUnless(shutil.which("cc"), "no C compiler")
    def test_sizes(self):
        shown = {row[0].strip("`"): int(row[1]) for row in table("struct")}
        source = '#include <stdio.h>\n#include "chimneyrye.h"\nint main(void) {\n%s    return 0;\n}\n' % "".join(
            '    printf("%s %%zu\\n", sizeof(%s));\n' % (name, name) for name in shown
        )
        with tempfile.TemporaryDirectory() as folder:
            place = os.path.join(folder, "sizes")
            with open(place + ".c", "w") as file:
                file.write(source)
            subprocess.run(["cc", "-std=c11", "-I", os.path.join(ROOT, "crates", "card", "include"), place + ".c", "-o", place], check=True)
            printed = subprocess.run([place], check=True, capture_output=True, text=True).stdout
        self.assertEqual({line.split()[0]: int(line.split()[1]) for line in printed.splitlines()}, shown)


class Places(unittest.TestCase):
    def test_files_that_the_text_names_are_there(self):
        named = [path for path in re.findall(r"`((?:crates|docs|peer|tests|tools|bench)/[\w./-]+)`", HANDBOOK) if "/out/" not in path]
        self.assertGreater(len(named), 5)
        self.assertEqual([path for path in named if not os.path.exists(os.path.join(ROOT, path))], [])


if __name__ == "__main__":
    unittest.main()
