"""What make_case --check says of cases."""
import json
import re
import unittest

from coshalit import cases

from . import TOP

GOOD = {"format": "flat", "image": "13", "input": "", "bound": 8, "patience": 0, "provers": [{}]}


def said(text):
    return list(cases.mistakes_of(cases.tree_of(text if isinstance(text, bytes) else text.encode())))


class Check(unittest.TestCase):
    def test_cases_of_examples_have_no_mistake_unless_they_are_to_show_one(self):
        good = 0
        for path in sorted(TOP.glob("examples/*/case.json")):
            transcript = path.with_name("transcript.txt").read_text()
            if not re.search("fault (task [0-9]+ )?(case|usage)", transcript):
                self.assertEqual(said(path.read_bytes()), [], path)
                good += 1
        self.assertGreater(good, 40)

    def test_each_mistake_has_a_sentence(self):
        for change, sentence in (
            ({"bound": 0}, "the case, bound: 0 isn't a whole number from 1 to 4,294,967,295, in digits alone"),
            ({"fann": 3}, 'the case: the key "fann" is ignored; is it meant for "fan"?'),
            ({"image": "1"}, 'the case, image: "1" isn\'t a string of hexadecimal digits, two for each byte'),
            ({"provers": [{"tamper": {"kind": "flop"}}]}, "the case, prover 1, tamper: the kind is none of flip, reg, early"),
            ({"provers": [{"manner": {"kind": "tape", "answers": [{"dispute": 0, "round": 0, "answer": "02"}]}}]},
                "the case, prover 1, manner, answer 1, answer: \"02\" isn't a wire form of docs/COMMITMENTS.md"),
        ):
            self.assertEqual(said(json.dumps({**GOOD, **change})), [sentence])

    def test_a_key_that_stands_twice_is_named(self):
        text = json.dumps(GOOD)[:-1] + ', "bound": 9}'
        self.assertEqual(said(text), ['the case: the key "bound" stands twice; the last one counts'])
        inner = json.dumps({**GOOD, "provers": ["P"]}).replace('"P"', '{"tamper": {"kind": "early", "steps": 1, "steps": 2}}')
        self.assertEqual(said(inner), ['the case, prover 1, tamper: the key "steps" stands twice; the last one counts'])

    def test_hostile_json_is_refused(self):
        for text in (b"", b"\0", b"\xff", b"[" * 100_000, b'{"a":' * 100_000, b"9" * 5000 + b"x", b'"\\ud800"', b"[" * 128 + b"]" * 128, b"1e999", b"NaN"):
            with self.assertRaises(cases.NoJson, msg=text[:20]):
                cases.tree_of(text)
        self.assertEqual(len(said(json.dumps(GOOD).replace("8", "9" * 200))), 1)
        keys = ",".join(f'"k": {number}' for number in range(5000))
        self.assertGreater(len(said(json.dumps(GOOD)[:-1] + "," + keys + "}")), 1)
