"""Tests of tools/timing.py and of what it reads and works out. Expected values come from documents 01 and 02 and the manual.

    python3 -m unittest discover -s tests
"""
import argparse
import os
import subprocess
import sys
import unittest
import xml.etree.ElementTree

ROOT = os.path.dirname(os.path.dirname(os.path.abspath(__file__)))
sys.path.insert(0, os.path.join(ROOT, "tools"))

import timing
import traces
from group_openness import GroupRun, group_course, speeds
from trace_reader import Card, Mismatch, active_inputs, deal_groups, first_fault, read_pair, read_report, read_trace
from trace_writer import INDEPENDENT, RESPONSE_120_MS, bits, group, groups, sample, setup, trace

USUAL = argparse.Namespace(samples=None, inputs=None, outputs=None)


def stored(name):
    with open(os.path.join(ROOT, name), "rb") as file:
        return file.read()


def stored_pair(name):
    return stored("tests/traces/%s.trace" % name), stored("tests/traces/%s.report" % name).decode()


def dark_report(positions):
    return "".join("%d %d 0 0000 0000\n" % row for row in enumerate(positions, 1))


def course_of(block, samples, response=0):
    """The course of group 1 at SF 1024, where positions are the raw ones, with inputs active by current."""
    data = trace(8513, setup(1024, response), groups(block), (), samples)
    whole, report, card = read_pair(data, dark_report(row[0] for row in samples))
    return group_course(card, card.groups[0], whole, report.rows)


def open_steps(block, samples, response=0):
    """The steps, from 0, in which group 1 is open, as (first, after the last) of each stretch."""
    flags = [is_open for _, is_open in course_of(block, samples, response)]
    edges = [k for k, (a, b) in enumerate(zip([False] + flags, flags + [False])) if a != b]
    return list(zip(edges[::2], edges[1::2]))


class Reading(unittest.TestCase):
    def test_example(self):
        whole, report, card = read_pair(*stored_pair("example"))
        self.assertEqual((whole.model, whole.setup, whole.groups, whole.limits), (8513, (), (), ()))
        self.assertEqual(whole.samples[0], (10, 0, 0, 0, 0, 5, 4, 0, 0))
        self.assertEqual([(row.position, row.tach, row.outputs) for row in report.rows], [(10, 0, 1), (1023, 0, 0)])
        self.assertEqual((card.scale, card.window_ms, card.real_count), (1024, 504, 16))

    def test_cut_anywhere_is_damaged(self):
        data = traces.example()
        self.assertTrue(read_trace(data).whole)
        for length in range(len(data)):
            self.assertFalse(read_trace(data[:length]).whole, length)
        self.assertFalse(read_trace(data + b"\0").whole)

    def test_lines_that_no_report_has(self):
        for text in ("2 10 0 0001 0000\n", "1 10 0 1 0\n", "bad\nbad\n", "1 10 0 0001 0000\nrefused 5\n", "1 10 0 00AB 0000\n"):
            with self.assertRaises(Mismatch, msg=text):
                read_report(text)

    def test_inputs(self):
        row = sample(0, current=0x0F0F, virtual=0x8001, inputs_on=0x0010, inputs_off=0x0011)
        self.assertEqual(active_inputs(Card(16, active_states=0xFFFF), row), 0x80010F0E)
        self.assertEqual(active_inputs(Card(16, active_states=0), row), 0x8001F0E0)
        self.assertEqual(active_inputs(Card(8, active_states=0), row), 0x800100E0)
        self.assertEqual(active_inputs(Card(0, active_states=0), row), 0x80010000)

    def test_dealing(self):
        """The manual's example, six and eight real outputs, with a virtual group between."""
        first, second, third = deal_groups(groups(group(0, 6), group(5, 3, virtual=True), group(5, 8)))
        self.assertEqual((first.outputs, second.outputs, third.outputs), (range(1, 7), range(17, 20), range(7, 15)))
        self.assertEqual((first.input, second.input, third.input), (1, 18, 3))
        self.assertEqual(third.first_cycle, 8)
        block = group(5, 3)
        block[0] |= 0x2000
        self.assertEqual(deal_groups(groups(block))[0].first_cycle, 24)


class Fit(unittest.TestCase):
    def refused(self, data, text, words):
        with self.assertRaises(Mismatch) as caught:
            read_pair(data, text)
        self.assertIn(words, str(caught.exception))

    def test_another_report(self):
        data, text = stored_pair("example")
        self.refused(data, text.replace("1023", "1022"), "Sample 2 is at position 1023")
        self.refused(data, text[:17], "2 samples and the report 1")
        self.refused(data, text + "bad\n", "whole")
        self.refused(data + b"\0", text, "damaged")
        self.refused(data, "refused 6\n" + text, "refused 6")
        self.refused(trace(8513), "", "no samples")
        self.refused(*stored_pair("refused_module"), "no module")

    def test_refusals_tell_which_cycles_were_accepted(self):
        scales = {"refused_setup": 1024, "refused_standing_error": 1024, "idle_sections": 1024, "refused_group": 1000}
        for name, scale in scales.items():
            card = read_pair(*stored_pair(name))[2]
            self.assertEqual((card.scale, card.groups, card.programmed), (scale, [], set()), name)
        card = read_pair(*stored_pair("refused_limit"))[2]
        self.assertEqual((len(card.groups), card.programmed), (1, set()))
        card = read_pair(*stored_pair("refused_group_independent"))[2]
        self.assertEqual((card.independent, card.groups, card.programmed), (True, [], {1}))

    def test_a_refusal_that_must_be_there(self):
        data, text = stored_pair("refused_setup")
        self.refused(data, text.replace("refused 5\n", "", 1), "refused 5")
        data = trace(8513, setup(1024, INDEPENDENT), groups(group(0, 1)), (), [sample(0)])
        self.refused(data, "1 0 0 0000 0000\n", "refused 5")


class Openness(unittest.TestCase):
    def test_speed(self):
        """Case b of document 01, as document 02 has it, in the second window: C is 1024."""
        for window_ms, tenths in ((120, 5000), (504, 1190)):
            card, steps = Card(16, window_ms=window_ms), window_ms * 5
            samples = [sample(k * 1024 // steps % 1024) for k in range(2 * steps)]
            self.assertEqual(list(speeds(card, samples))[-1], (tenths, False))
        stops = [k for k, (_, stop) in enumerate(speeds(Card(16), [sample(7)] * 6000)) if stop]
        self.assertEqual(stops, [2519, 5039])

    def test_a_creep_is_no_stop(self):
        """One count in the second window, either way: 5 tenths in 120 ms and 1 in 504; then the machine stands."""
        for window_ms, tenths in ((120, 5), (504, 1)):
            card, steps = Card(16, window_ms=window_ms), window_ms * 5
            for to in (8, 6):
                told = list(speeds(card, [sample(7)] * steps + [sample(to)] * (2 * steps)))
                self.assertEqual(told[steps - 1 :: steps], [(0, True), (tenths, False), (0, True)])

    def test_modes_0_and_1_are_always_open(self):
        samples = [sample(0), sample(1, bits(1)), sample(2)]
        for mode in (0, 1):
            self.assertEqual(open_steps(group(mode, 1, dwell=(0, 50)), samples), [(0, 3)])

    def test_mode_1_presets_the_position(self):
        """Preset 7 and dwell 8/10: the taken edge at 500 makes 501 and 502 the dwell; the edge at 600 comes after it and is taken."""
        raws = (490, 500, 501, 502, 503, 600, 601)
        samples = [sample(raw, bits(1) if raw in (500, 600) else 0) for raw in raws]
        dwell = [in_dwell for in_dwell, _ in course_of(group(1, 1, dwell=(8, 10), offset=7), samples)]
        self.assertEqual(dwell, [False, False, True, True, False, False, True])

    def test_mode_2(self):
        """Opened by the edge at 100, which presets to 0; the edge at 120 is ignored; the dwell 50/60 begins at 150; 200 opens again."""
        raws = (90, 100, 110, 120, 149, 150, 160, 200)
        samples = [sample(raw, bits(1) if raw in (100, 120, 200) else 0) for raw in raws]
        self.assertEqual(open_steps(group(2, 1, dwell=(50, 60)), samples), [(1, 5), (7, 8)])

    def test_a_preset_into_the_dwell_is_no_beginning(self):
        """Dwell 50/60 and preset 55: the group stays open in the dwell that the edge at 100 puts it in, and closes at the next one."""
        samples = [sample(raw, bits(1) if raw == 100 else 0) for raw in (90, 100, 101, 104, 105, 200, 94, 95)]
        course = course_of(group(2, 1, dwell=(50, 60), offset=55), samples)
        self.assertEqual([in_dwell for in_dwell, _ in course], [False, True, True, True, False, False, False, True])
        self.assertEqual([is_open for _, is_open in course], [False, True, True, True, True, True, True, False])

    def test_mode_3(self):
        samples = [sample(0), sample(1, bits(1)), sample(2, bits(1)), sample(3)]
        self.assertEqual(open_steps(group(3, 1), samples), [(1, 3)])

    def test_mode_4(self):
        """Cases h and i of document 01, an edge in the first step, and the close by the next dwell."""
        block = group(4, 1, dwell=(0, 50))
        raws = (1000, 10, 20, 60)
        self.assertEqual(open_steps(block, [sample(raw, bits(1) if raw == 20 else 0) for raw in raws]), [(2, 4)])
        self.assertEqual(open_steps(block, [sample(raw, bits(1)) for raw in raws]), [])
        self.assertEqual(open_steps(block, [sample(raw, bits(1)) for raw in (10, 20, 60, 1000, 0, 20)]), [(0, 4)])

    def test_mode_4_with_an_offset_and_a_virtual_input(self):
        block = group(4, 1, virtual=True, dwell=(0, 50), offset=24)
        samples = [sample(raw, virtual=bits(17) if raw >= 1000 else 0) for raw in (999, 1000, 20, 30)]
        self.assertEqual(open_steps(block, samples), [(1, 4)])

    def test_mode_5(self):
        """Two counts a step, the input active until the machine stands from step 1100 on; updates are the steps 599, 1199 and so on.

        The dwells at 0 and 512 come before the first update. The stop at 1799 closes, First Cycle opens at 1850, the stop at 2399 closes,
        and the edge at 2999 is in the step of a stop and opens.
        """
        samples = []
        for k in range(3100):
            first_cycle = bits(8) if 1850 <= k < 1900 or k >= 2999 else 0
            samples.append(sample(2 * min(k, 1100) % 1024, first_cycle | (bits(1) if k < 1100 else 0)))
        self.assertEqual(open_steps(group(5, 1, dwell=(0, 100)), samples, RESPONSE_120_MS), [(1024, 1799), (1850, 2399), (2999, 3100)])

    def test_mode_5_in_a_creep(self):
        """One count back with the input active qualifies at step 1199, one more without it is no stop; the machine stands from then on."""
        samples = [sample(50 - min(k // 600, 2), bits(1) if k < 1200 else 0) for k in range(2401)]
        self.assertEqual(open_steps(group(5, 1, dwell=(0, 100)), samples, RESPONSE_120_MS), [(1199, 2399)])

    def test_mode_5_forgets_at_a_dwell(self):
        """A First Cycle edge opens only where a qualifying step came since the latest dwell began."""
        run = GroupRun(deal_groups(groups(group(5, 1, dwell=(0, 50))))[0], 1024)
        first_cycle = bits(8)
        told = []
        for machine, active in ((10, bits(1)), (60, 0), (0, 0), (60, first_cycle), (10, first_cycle), (20, first_cycle | bits(1))):
            run.step(machine, active, 1000, False)
            told.append(run.open)
        self.assertEqual(told, [True, True, False, False, False, True])

    def test_nothing_is_open_in_a_fault(self):
        samples = [sample(0), sample(1024), sample(1)]
        data = trace(8513, setup(1024), groups(group(0, 1)), (), samples)
        whole, report, card = read_pair(data, dark_report([0, 0, 0]))
        self.assertEqual(first_fault(whole), 1)
        self.assertEqual(group_course(card, card.groups[0], whole, report.rows), [(False, True), (False, False), (False, False)])

    def test_outputs_of_the_stored_reports(self):
        """An output that is on without force belongs to an open group."""
        for name in ("carton_line", "bottle_line", "resolver_fault"):
            whole, report, card = read_pair(*stored_pair(name))
            for each in card.groups:
                own = sum(1 << n - 1 for n in each.outputs)
                course = group_course(card, each, whole, report.rows)
                lit = [row.outputs & ~(s[5] | s[7] << 16) & own for s, row in zip(whole.samples, report.rows)]
                self.assertTrue(any(lit), (name, each.number))
                dark = [k for k, (_, is_open) in enumerate(course) if not is_open]
                self.assertFalse(any(lit[k] for k in dark), (name, each.number))


class Drawn(unittest.TestCase):
    def program(self, *words):
        command = [sys.executable, os.path.join(ROOT, "tools", "timing.py"), *words]
        return subprocess.run(command, capture_output=True, text=True, cwd=ROOT)

    def test_the_carton_line_of_the_docs(self):
        names = timing.read_names(stored("tests/traces/carton_line.names").decode())
        drawn = timing.draw(*stored_pair("carton_line"), "carton line", USUAL, names)
        self.assertTrue(drawn == stored("docs/carton_line.svg").decode(), "docs/carton_line.svg is to be drawn again")

    def test_stored_traces(self):
        for name in traces.TRACES:
            try:
                drawn = timing.draw(*stored_pair(name), name, USUAL, {})
            except Mismatch as told:
                self.assertRegex(str(told), "no samples to draw", name)
                continue
            picture = xml.etree.ElementTree.fromstring(drawn)
            self.assertTrue(picture.tag.endswith("}svg"), name)
            self.assertLess(len(drawn), 150000, name)

    def test_rows_and_marks(self):
        drawn = timing.draw(*stored_pair("resolver_fault"), "", USUAL, {("output", 1): "<gun>"})
        for words in ("input 1", "group 1, Mode 4", "output 2", "output 17", "&lt;gun&gt;", "answered 11 from sample 951 on", "forced on"):
            self.assertIn(words + "<", drawn)
        self.assertNotIn("forced off", drawn)
        chosen = argparse.Namespace(samples=(100, 900), inputs=[5], outputs=[2])
        drawn = timing.draw(*stored_pair("resolver_fault"), "", chosen, {})
        for words in ("input 1<", "output 1<", "group 2", "answered 11"):
            self.assertNotIn(words, drawn)
        self.assertIn("samples 100 to 900 of 1500", drawn)

    def test_forced_off_beats_forced_on(self):
        data = trace(8513, samples=[sample(0, on=bits(1), off=bits(1))])
        drawn = timing.draw(data, dark_report([0]), "", argparse.Namespace(samples=None, inputs=None, outputs=[1]), {})
        self.assertIn("forced off", drawn)
        self.assertNotIn("forced on", drawn)

    def test_one_sample(self):
        chosen = argparse.Namespace(samples=(951, 951), inputs=None, outputs=None)
        xml.etree.ElementTree.fromstring(timing.draw(*stored_pair("resolver_fault"), "", chosen, {}))

    def test_program(self):
        paths = ["tests/traces/example.trace", "tests/traces/example.report"]
        done = self.program(*paths)
        self.assertEqual((done.returncode, done.stderr), (0, ""))
        for words in ([], paths[:1], ["--samples", "2", "1", *paths], ["--outputs", "33", *paths], ["--inputs", "x", *paths]):
            done = self.program(*words)
            self.assertEqual((done.returncode, done.stdout, done.stderr[:6]), (2, "", "usage:"))
        other = "tests/traces/refused_limit.report"
        for words in ([paths[0], other], ["--samples", "1", "3", *paths], [paths[0], "absent"], ["--names", other, *paths]):
            done = self.program(*words)
            self.assertEqual((done.returncode, done.stdout, done.stderr.count("\n")), (1, "", 1), words)


if __name__ == "__main__":
    unittest.main()
