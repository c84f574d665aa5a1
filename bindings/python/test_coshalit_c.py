"""Tests of coshalit_c, by the examples of the repository. COSHALIT_LIBRARY names the shared library: python3 -m unittest."""
import pathlib
import sys
import unittest

sys.dont_write_bytecode = True
import coshalit_c  # noqa: E402
from coshalit_c import Kind, Match, Numbers, Prover, Question, Reply, Settlement, Status, Verdict  # noqa: E402

EXAMPLES = pathlib.Path(__file__).resolve().parent.parent.parent / "examples"
CASE = b'{"format":"flat","image":"1305%s029308100073000000130500009308d00573000000","input":"","bound":8,"patience":0,"provers":[{}]}'
# A program that writes one byte, 2a or 2b, and exits.
OF_2A, OF_2B = CASE % b"a0", CASE % b"b0"
START = bytes.fromhex("183959fe9e2293200e53fc93acb41f25f4341e8f6a99a6caa23193d901d2cd6d")
CLAIM = Question(1, 0, 0, Kind.CLAIM)


def numbers(provers, patience=0, **others):
    return Numbers(**{"version": 1, "provers": provers, "fan": 2, "patience": patience, "bound": 8, "start": START, **others})


def played(match, *cases):
    """Answers each question by the run of its prover's case, the last prover that is asked first."""
    while match.questions:
        asked = match.questions[-1]
        match.post(asked.prover, asked.dispute, asked.round, Prover(cases[asked.prover - 1]).answer(asked))
    return match


class Referee(unittest.TestCase):
    def setUp(self):
        words = (EXAMPLES / "embed/step.txt").read_text().split()
        self.root, self.proof = map(bytes.fromhex, words[1:])

    def assert_refused(self, ruling, *step):
        with self.assertRaises(coshalit_c.StepRefused) as found:
            coshalit_c.check_step(*step)
        self.assertEqual(found.exception.ruling, ruling)

    def test_a_proof_leads_to_the_next_root(self):
        leads = "330236e48c3fd209f9104ab59530c443822e5d5c75bcc09428515b731d25cde1"
        self.assertEqual(coshalit_c.check_step(1, self.root, self.proof).hex(), leads)

    def test_a_proof_is_refused_by_the_first_condition_that_fails(self):
        self.assert_refused(coshalit_c.Ruling.WRONG_SHAPE, 2, self.root, self.proof)
        self.assert_refused(coshalit_c.Ruling.NO_PROOF, 1, self.root, self.proof[1:])
        self.assert_refused(coshalit_c.Ruling.NO_PROOF, 1, self.root, b"")
        self.assert_refused(coshalit_c.Ruling.NOT_OPEN, 1, bytes(32), self.proof)
        self.assert_refused(coshalit_c.Ruling.WRONG_LENGTH, 1, self.root[1:], self.proof)

    def test_a_full_text_is_confirmed_or_refused_at_its_line(self):
        text = (EXAMPLES / "liar_is_bisected/full_text.txt").read_bytes()
        self.assertEqual(coshalit_c.audit(text), "confirmed accept exited 0 output 2a\n")
        for wrong, said in ((EXAMPLES / "changed_texts/a_false_proof.txt").read_bytes(), "refused 12 3\n"), (b"", "fault text 3\n"):
            with self.assertRaises(coshalit_c.Refused) as found:
                coshalit_c.audit(wrong)
            self.assertEqual((found.exception.status, found.exception.text), (Status.AUDIT_REFUSED, said))

    def test_a_case_is_run_and_listed(self):
        self.assertEqual(coshalit_c.run(OF_2A), "answer exited 0 output 2a\n")
        self.assertEqual(coshalit_c.listing(OF_2A).splitlines()[0], "addi x10, x0, 42")
        with self.assertRaises(coshalit_c.Refused) as found:
            coshalit_c.run(b"{")
        self.assertEqual(found.exception.status, Status.BAD_CASE)

    def test_a_text_longer_than_the_first_room_is_whole(self):
        case = OF_2A.replace(b"130500009308d00573000000", b"13000000" * 2000)
        self.assertGreater(len(coshalit_c.listing(case).splitlines()), 2000)

    def test_a_claim_has_its_root(self):
        claim = Prover(OF_2A).answer(CLAIM)
        self.assertEqual(coshalit_c.claim_root(claim).hex(), "078add20bc2c812fcaf74f520828c1a827c468f504d583b65992e27624179d46")
        for wrong, status in (claim[:-1] + b"\0", 1), (b"\2", 3):
            with self.assertRaises(coshalit_c.ClaimRefused) as found:
                coshalit_c.claim_root(wrong)
            self.assertEqual(found.exception.status, status)

    def test_a_prover_has_the_roots_of_its_run(self):
        prover = Prover(OF_2A)
        self.assertEqual(prover.start_root(), START)
        middle = bytes.fromhex("591d8c752c1eed7041874849627ea737243c9086008c2d13dc4c3e803a14d8f5")
        self.assertEqual(prover.roots_at([4, 0, 4]), [middle, START, middle])
        self.assertEqual(prover.roots_at([]), [])
        with self.assertRaises(coshalit_c.Refused) as found:
            prover.roots_at([9])
        self.assertEqual(found.exception.status, Status.NOT_ASKED)

    def test_the_library_has_the_version_of_the_header(self):
        self.assertEqual(coshalit_c.version() // 10000, 1)


class Matches(unittest.TestCase):
    def assert_no_log(self, at, cause, rule, post, *arguments):
        with self.assertRaises(coshalit_c.NoLog) as found:
            post(*arguments)
        self.assertEqual((found.exception.at, found.exception.cause, found.exception.rule), (at, cause, rule))

    def test_true_answers_win(self):
        for winner, cases in (1, (OF_2A, OF_2B)), (2, (OF_2B, OF_2A)):
            match = played(Match(numbers(2)), *cases)
            self.assertEqual((match.verdict, match.accepted), (Verdict.ACCEPTED, winner))
            self.assertEqual(coshalit_c.audit(match.text()), "confirmed accept exited 0 output 2a\n")

    def test_rounds_of_several_parts_ask_for_several_roots(self):
        match = Match(numbers(2, fan=4))
        for prover, case in (1, OF_2A), (2, OF_2B):
            match.post(prover, 0, 0, Prover(case).answer(CLAIM))
        asked = match.questions[0]
        self.assertEqual((asked.kind, asked.low, asked.high, asked.parts), (Kind.ROOTS, 0, 8, 4))
        self.assertEqual(played(match, OF_2A, OF_2B).accepted, 1)

    def test_a_stale_post_changes_nothing(self):
        match = Match(numbers(2))
        before = match.questions
        self.assertEqual(match.post(1, 7, 1, b"\2" + bytes(32)), Reply.STALE)
        self.assertEqual(match.questions, before)

    def test_bytes_that_are_no_answer_are_not_kept(self):
        match = Match(numbers(2))
        match.post(1, 0, 0, Prover(OF_2A).answer(CLAIM))
        before = match.log, match.questions
        for answer, rule in (b"", 1), (b"\2abc", 1), (b"\7", 2):
            self.assert_no_log(len(match.log), 3, rule, match.post, 2, 0, 0, answer)
        self.assert_no_log(len(match.log), 2, 0, match.pass_, 3, 0, 0)
        for prover in 0, 3:
            self.assert_no_log(len(match.log), 2, 0, match.post, prover, 0, 0, b"")
        self.assertEqual((match.log, match.questions), before)

    def test_a_pass_beyond_the_patience_puts_out(self):
        match = Match(numbers(2, 1))
        match.post(1, 0, 0, Prover(OF_2A).answer(CLAIM))
        self.assertEqual([match.pass_(2, 0, 0) for _ in range(2)], [Reply.TAKEN, Reply.SPENT])
        self.assertEqual((match.verdict, match.accepted), (Verdict.ACCEPTED, 1))

    def test_a_match_is_over_once_it_has_a_verdict(self):
        match = Match(numbers(1))
        self.assertFalse(match.verdict)
        match.post(1, 0, 0, Prover(OF_2A).answer(CLAIM))
        self.assertIs(match.verdict, Verdict.ACCEPTED)
        self.assertTrue(match.verdict)

    def test_bytes_of_any_type_are_taken_and_nothing_else(self):
        for kind in bytearray, memoryview:
            match = Match(numbers(1))
            match.post(1, 0, 0, kind(Prover(kind(OF_2A)).answer(CLAIM)))
            self.assertEqual(coshalit_c.audit(kind(match.text())), "confirmed accept exited 0 output 2a\n")
            self.assertEqual(Match(numbers(1), kind(match.log)).log, match.log)
        for call in (
            lambda: Prover(OF_2A.decode()),
            lambda: Match(numbers(1), 100),
            lambda: Match(numbers(1)).post(1, 0, 0, "2a"),
            lambda: Match(numbers(1)).post(1, 0, 0, None),
            lambda: coshalit_c.audit("confirmed"),
            lambda: coshalit_c.check_step(1, START.hex(), b""),
        ):
            self.assertRaises(TypeError, call)

    def test_a_stored_log_is_the_same_match(self):
        match = played(Match(numbers(2)), OF_2A, OF_2B)
        self.assertEqual(Match(numbers(2), match.log).text(), match.text())
        with self.assertRaises(coshalit_c.NoLog) as found:
            Match(numbers(2), match.log[:-1])
        self.assertEqual(found.exception.cause, 1)

    def test_what_the_module_does_not_know_is_an_error_and_the_match_is_as_it_was(self):
        """A library that says after the next post what no version with this major number says."""
        for field, what in ("reply", "reply"), ("kind", "kind"):
            match = Match(numbers(2))
            before = match.log, match.questions, match.verdict
            own = coshalit_c._calls["match"]

            def changed(numbers, log, length, found, asked, room):
                status = own(numbers, log, length, found, asked, room)
                setattr(asked[0] if field == "kind" else found._obj, field, 77)
                return status

            coshalit_c._calls["match"] = changed
            try:
                with self.assertRaises(coshalit_c.Unknown) as raised:
                    match.pass_(1, 1, 1)
            finally:
                coshalit_c._calls["match"] = own
            self.assertEqual((raised.exception.what, raised.exception.number), (what, 77))
            self.assertEqual((match.log, match.questions, match.verdict), before)

    def test_numbers_beyond_their_limits_are_refused(self):
        for wrong in numbers(0), numbers(17), numbers(2, 101), numbers(2, version=4), numbers(2, fan=1):
            with self.assertRaises(coshalit_c.Refused) as found:
                Match(wrong)
            self.assertEqual(found.exception.status, Status.BAD_NUMBERS)

    def test_numbers_that_c_would_cut_are_refused(self):
        for call in (
            lambda: Match(numbers(2**32 + 2)),
            lambda: Match(numbers(2, start=START + b"\0")),
            lambda: Match(numbers(2)).balances(-1),
            lambda: Match(numbers(2)).pass_(2**32 + 1, 0, 0),
            lambda: Match(numbers(2)).post(-1, 0, 0, b"\2" + bytes(32)),
            lambda: Match(numbers(2)).post("1", 0, 0, b""),
            lambda: Match(numbers(2)).post(1, 0.5, 0, b"\2" + bytes(32)),
            lambda: Match(numbers(2)).burned(None),
            lambda: Prover(OF_2A).roots_at([2**64]),
            lambda: Prover(OF_2A).answer(Question(1, 1, 1, Kind.ROOT, low=2**64)),
            lambda: coshalit_c.check_step(2**32 + 1, START, b""),
        ):
            self.assertRaises(coshalit_c.BadValue, call)

    def test_the_honest_prover_has_the_stakes_of_two_liars(self):
        """As the transcript of examples/stakes_of_two_liars says."""
        match = Match(numbers(3))
        self.assertIsNone(match.balances(10))
        played(match, OF_2B, OF_2B, OF_2A)
        self.assertEqual(match.balances(10), Settlement((0, 0, 30), 0))
        self.assertEqual(match.burned(10), Settlement((0, 0, 10), 20))
        with self.assertRaises(coshalit_c.Refused) as found:
            match.balances(1_000_000_001)
        self.assertEqual(found.exception.status, Status.BAD_NUMBERS)


if __name__ == "__main__":
    unittest.main()
