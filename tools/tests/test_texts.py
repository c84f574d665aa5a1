"""Reports, full texts, audits and pictures, against transcripts; and hostile texts. `checks/quick` compares audits with rows of test_refcli."""
import pathlib
import random
import re
import unittest
import xml.etree.ElementTree

from coshalit import colours, game, pictures, reading, reports, texts

from . import TOP, commands

STORED = [path for path in sorted(TOP.glob("examples/*/full_text.txt"))]


def report_texts():
    """Each report of a transcript."""
    for folder, words, text, _ in commands():
        if text.startswith(("match ", "task 1\nmatch ")):
            yield folder, text


class Reports(unittest.TestCase):
    def test_each_report_is_read_and_written_again(self):
        compared = 0
        for folder, text in report_texts():
            for part in reports.parts_of_tasks(text) or [text]:
                self.assertEqual("".join(f"{line}\n" for line in reports.read(part).lines()), part, folder)
                compared += 1
        self.assertGreater(compared, 50)

    def test_a_report_that_lacks_a_line_or_bytes_is_refused(self):
        for folder, text in report_texts():
            lines = text.splitlines(keepends=True)
            if len(lines) > 40:
                continue
            for at in range(len(lines)):
                for changed in "".join(lines[:at] + lines[at + 1 :]), "".join(lines[:at]) + lines[at][:-2]:
                    with self.assertRaises(reading.NoMatchText, msg=f"{folder}, line {at + 1}"):
                        reading.matches_of(changed)

    def test_changed_reports_are_read_or_refused(self):
        chance = random.Random(3)
        for _, text in report_texts():
            for _ in range(20):
                changed = changed_text(chance, text.encode()).decode("latin-1")
                try:
                    matches, _ = reading.matches_of(changed)
                except reading.NoMatchText as fault:
                    self.assertTrue(str(fault).isprintable())
                else:
                    xml.etree.ElementTree.fromstring(pictures.picture_of_tasks(matches))


class FullTexts(unittest.TestCase):
    def test_changed_texts_are_audited_as_in_their_transcript(self):
        compared = 0
        for folder, words, text, _ in commands():
            if folder == "changed_texts" and words.startswith("refcli audit <"):
                content = (TOP / "examples/changed_texts" / words.partition("<")[2]).read_bytes()
                self.assertEqual(game.audited(content) + "\n", text, words)
                compared += 1
        self.assertGreater(compared, 5)

    def test_a_full_text_gives_the_report_of_its_match(self):
        compared = 0
        for path in STORED:
            wanted = [text for folder, text in report_texts() if folder == path.parent.name]
            self.assertIn("".join(f"{line}\n" for line in game.played(path.read_bytes()).match.lines()), wanted)
            compared += 1
        self.assertGreater(compared, 1)

    def test_a_text_that_is_cut_off_is_refused(self):
        for path in STORED:
            text = path.read_bytes()
            for at in [*range(1, len(text), max(1, len(text) // 40)), *(found.end() for found in re.finditer(b"\n", text[:-1]))]:
                self.assertEqual(game.audited(text[:at]), "fault text 3", f"{path.parent.name}, {at} bytes")

    def test_another_collision_is_refused(self):
        found = [text for text in map(pathlib.Path.read_bytes, STORED) if b"\ncollision " in text]
        self.assertGreater(len(found), 0)
        for text in found:
            head, _, line = text.rpartition(b"\ncollision ")
            last = head.count(b"\n") + 2
            self.assertEqual(game.audited(head + b"\ncollision 00 01\n"), f"refused {last} 3")
            self.assertEqual(game.audited(head + b"\ncollision zz\n"), f"fault text 2 {last}")
            one, other = line.split()
            self.assertEqual(game.audited(head + b"\ncollision " + other + b" " + one + b"\n"), f"refused {last} 3")

    def test_hostile_texts(self):
        text = (TOP / "examples/liar_is_bisected/full_text.txt").read_bytes()
        nines, long = b"9" * 5000, b"a" * (texts.MAX_BYTES - 1) + b"\n"
        for hostile, answer in (
            (b"", "fault text 3"), (b"\0", "fault text 3"), (b"\n", "fault text 1"), (b"\0" * 99 + b"\n", "fault text 1"),
            (text.replace(b"bound 8", b"bound " + nines), "fault text 4 1"), (text.replace(b"move 1", b"move " + nines, 1), "fault text 2 4"),
            (text[:-1], "fault text 3"), (text + b"\n", "fault text 2 13"), (text + b"x", "fault text 3"), (text.replace(b"\n", b"\r\n"), "fault text 1"),
            (long, "fault text 1"), (b"a" + long, "fault too long"), (text.split(b"\n")[0] + b"\nmove 0 0 p1 given " + long[1000:], "fault text 2 2"),
        ):  # fmt: skip
            self.assertEqual(game.audited(hostile), answer, hostile[:40])

    def test_what_is_said_of_a_line_is_safe_to_print(self):
        for line in b"\x1b[2Jmatch", b"\x9b2J", b"a\rb", b"\0":
            with self.assertRaises(game.NoMatch) as refused:
                game.played(line + b"\n")
            self.assertTrue(str(refused.exception).isprintable())

    def test_more_than_eight_tasks_are_refused(self):
        parts = "".join(f"task {number}\nmatch\n" for number in range(1, 10))
        with self.assertRaisesRegex(reading.NoMatchText, "more than 8 tasks"):
            reading.matches_of(parts)


def changed_text(chance, text):
    """A text with a byte or a line changed, left out or doubled: another text."""
    if chance.random() < 0.5:
        pieces = text.splitlines(keepends=True)
        at = chance.randrange(len(pieces))
    else:
        pieces = [text[k : k + 1] for k in range(len(text))]
        at = chance.choice([chance.randrange(len(text)), chance.randrange(min(len(text), 160)), -chance.randrange(1, min(len(text), 160))]) % len(text)
    piece = pieces[at]
    others = [bytes(piece[:-2]) + byte + bytes(piece[-1:]) for byte in (b"0", b" ", b"g", b"\0", b"9", b"\xff")]
    pieces[at] = chance.choice([b"", piece * 2, chance.choice([other for other in others if other != piece])])
    return b"".join(pieces)


class Pictures(unittest.TestCase):
    def test_a_full_text_is_drawn_by_roots(self):
        """Two claims of one text and two roots have two shades, also if they never met; of the report nothing shows it, and the picture says so."""
        match = reading.match_of(next(text for folder, text in report_texts() if folder == "two_liars_one_honest"))
        self.assertIn(pictures.ONE_TEXT, pictures.picture_of(match))
        one, other = bytes(32), bytes([1]) + bytes(31)
        match.roots = {1: one, 2: one, 3: other}
        self.assertEqual(match.claims[1], match.claims[2])
        self.assertEqual([shade for _, shade in colours.states_of(match).values()].count(1), 0)
        self.assertNotIn(pictures.ONE_TEXT, pictures.picture_of(match))
        match.roots[2] = other
        self.assertEqual(colours.states_of(match)[2][1], 1)
