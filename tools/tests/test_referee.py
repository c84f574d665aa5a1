"""Wire forms, claims and proofs of steps, against the vectors."""
import json
import unittest

from coshalit import answers, commitments, matches, referee
from coshalit.commitments import number, sha256

from . import TOP


def vectors(name):
    found = json.loads((TOP / "examples/vectors" / f"{name}.json").read_bytes())
    assert found, f"{name}.json is empty"
    return found


class Vectors(unittest.TestCase):
    def test_steps(self):
        for vector in vectors("steps"):
            proof = answers.read_answer(bytes.fromhex(vector["proof"]))
            self.assertEqual(referee.leads(sha256, vector["version"], bytes.fromhex(vector["root"]), proof).hex(), vector["leads"], vector["name"])

    def test_refusals(self):
        for vector in vectors("refusals"):
            proof = answers.read_answer(bytes.fromhex(vector["proof"]))
            with self.assertRaises(referee.Refused) as refused:
                referee.leads(sha256, vector["version"], bytes.fromhex(vector["root"]), proof)
            self.assertEqual(str(refused.exception), vector["refusal"], vector["name"])

    def test_wire_forms(self):
        for vector in vectors("wire_forms"):
            try:
                answers.read_answer(bytes.fromhex(vector["answer"]))
                fault = 0
            except answers.BadForm as bad:
                fault = bad.args[0]
            self.assertEqual(fault, vector["fault"], vector["name"])

    def test_claims(self):
        for vector in vectors("claims"):
            claim = answers.read_answer(bytes.fromhex(vector["answer"]))
            self.assertTrue(claim.is_sound(sha256))
            self.assertEqual(sha256(claim.state_string(sha256)).hex(), vector["root"])

    def test_cuts(self):
        for vector in vectors("cuts"):
            ends = matches.ends_of(vector["low"], vector["high"], vector["fan"])
            part = matches.kept_part(vector["first"], vector["second"])
            self.assertEqual((ends[1:-1], ends[part : part + 2]), (vector["cuts"], vector["kept"]))

    def test_bytes_that_are_none_are_refused_or_read(self):
        """Each change of a byte of an answer is read as an answer or raises `BadForm`, and leads somewhere or raises `Refused`."""
        refused = 0
        for vector in vectors("steps")[::40]:
            wire = bytes.fromhex(vector["proof"])
            for at in range(0, len(wire), 7):
                try:
                    proof = answers.read_answer(wire[:at] + bytes([wire[at] ^ 0xFF]) + wire[at + 1 :])
                    if isinstance(proof, answers.Proof):
                        referee.leads(sha256, vector["version"], bytes.fromhex(vector["root"]), proof)
                except (answers.BadForm, referee.Refused):
                    refused += 1
        self.assertGreater(refused, 50)


class Lengths(unittest.TestCase):
    def test_an_output_of_the_largest_length_begins_anew(self):
        """Two liars may agree on a made-up state whose length is 2^64 - 1 before a byte is put: the next length is 0."""
        vector = next(each for each in vectors("steps") if (each["name"], each["version"]) == ("ecall", 1))
        proof = answers.read_answer(bytes.fromhex(vector["proof"]))
        registers = sha256(b"\x02" + b"".join(number(value, 4) for value in proof.shown))

        def root(pc, length, chain):
            control = b"\x03" + number(pc, 4) + bytes(5) + length + chain
            return sha256(b"\x04" + proof.memory + registers + sha256(control))

        chain = proof.control.chain
        proof.control = proof.control._replace(length=(1 << 64) - 1)
        after = root(proof.control.pc + 4, bytes(8), sha256(b"\x05" + chain + b"\x2a"))
        self.assertEqual(referee.leads(sha256, 1, root(proof.control.pc, b"\xff" * 8, chain), proof), after)

    def test_numbers_are_modulo_what_they_hold(self):
        self.assertEqual(commitments.number(1 << 64, 8), bytes(8))
