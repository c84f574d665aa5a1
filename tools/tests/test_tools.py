"""The tools as they are called: their statuses and lines, also for hostile inputs and when they are interrupted."""
import json
import os
import pathlib
import signal
import subprocess
import sys
import tempfile
import time
import unittest

from . import TOOLS, TOP, commands

NINES = b"9" * 5000
FULL = (TOP / "examples/liar_is_bisected/full_text.txt").read_bytes()
CASE = TOP / "examples/liar_is_bisected/case.json"
REPORT = next(text for folder, _, text, _ in commands() if folder == "liar_is_bisected" and text.startswith("match ")).encode()


def called(tool, *words, given=b""):
    done = subprocess.run([sys.executable, str(TOOLS / tool), *map(str, words)], input=given, capture_output=True, timeout=120)
    return done.returncode, done.stdout.decode(), done.stderr.decode()


class Tools(unittest.TestCase):
    def refused(self, tool, *words, given=b"", status=1):
        """Asserts that a call ends in this status, with nothing on standard output and no traceback, and gives the last line on standard error."""
        ended, out, err = called(tool, *words, given=given)
        self.assertEqual((ended, out), (status, ""), err[:300])
        self.assertNotIn("Traceback", err)
        if status == 1:
            self.assertRegex(err, rf"\A{tool}: [^\n]{{1,400}}\n\Z")
        return err.splitlines()[-1]

    def test_read_text(self):
        lines = called("read_text", "--stake", "5", given=FULL)[1].splitlines()
        self.assertEqual(lines[2:], [
            "p1 stays", "p2 is out in dispute 1 with p1, step 1: refuted, its step leads to another root than its own",
            "balance p1 10", "balance p2 0", "pool 0", "accept exited 0 output 2a",
        ])  # fmt: skip
        for at in range(1, 11):
            cut = b"".join(FULL.splitlines(keepends=True)[:at])
            self.assertIn("it is cut off", self.refused("read_text", given=cut))
        self.assertIn("line 1: a number is out of its limits", self.refused("read_text", given=FULL.replace(b"bound 8", b"bound " + NINES)))
        self.assertIn("it is a report", self.refused("read_text", given=REPORT))
        self.refused("read_text", given=b"\x1b[2J\0" + b"a" * 100)
        self.refused("read_text", "--stake", "9" * 5000, status=2)

    def test_draw_match(self):
        for text in REPORT, FULL:
            status, out, err = called("draw_match", given=text)
            self.assertEqual((status, err, out[:4]), (0, "", "<svg"))
        self.assertIn("line 1 has a number of too many digits", self.refused("draw_match", given=REPORT.replace(b"bound 8", b"bound " + NINES)))
        self.refused("draw_match", given=REPORT.replace(b"exited 0", b"exited " + NINES))
        self.refused("draw_match", given=b"a" * (1 << 24))
        self.refused("draw_match", given=b"")
        self.refused("draw_match", given=FULL[:-100])

    def test_make_case_and_where(self):
        with tempfile.TemporaryDirectory() as name:
            folder = pathlib.Path(name)
            (folder / "program.s").write_text("addi x10, x0, 42\naddi x17, x0, 93\necall\n")
            status, made, err = called("make_case", "--asm", "--stake", "3", folder / "program.s", "/dev/null", "100")
            self.assertEqual((status, err), (0, ""))
            self.assertEqual({**json.loads(made), "image": ""}, {
                "format": "asm", "image": "", "input": "", "bound": 100, "patience": 0, "provers": [{}], "stake": 3,
            })  # fmt: skip
            (folder / "case.json").write_text(made)
            self.assertEqual(called("make_case", "--check", folder / "case.json")[0], 0)
            self.assertIn("exited 42 after 3 steps", called("where", folder / "case.json")[1])
            self.assertIn("there is no step 100", self.refused("where", "--step", "100", folder / "case.json"))
            for content in b"[" * 200_000, b"{}", b"\0", b'{"bound": ' + NINES + b"}", b'{"format": 1, "image": 2}':
                (folder / "bad.json").write_bytes(content)
                self.refused("where", folder / "bad.json")
                self.refused("count_steps", "--refcli", "/bin/false", folder / "bad.json")
        self.refused("make_case", "--flat", CASE, "/dev/null", "9" * 5000, status=2)
        self.refused("make_case", "--check", "/no/such/file")
        self.refused("where", "--step", "9" * 5000, CASE, status=2)

    def test_where_of_a_dispute(self):
        for text in REPORT, FULL:
            self.assertIn("step 1 carries out the instruction", called("where", "--dispute", "1", CASE, given=text)[1])
        self.assertIn("has no dispute 2", self.refused("where", "--dispute", "2", CASE, given=REPORT))
        self.refused("where", "--dispute", "1", CASE, given=REPORT.replace(b"step 1 ", b"step " + NINES + b" "))
        self.assertIn("of another case", self.refused("where", "--dispute", "1", TOP / "examples/bound_of_one/case.json", given=REPORT))

    def test_judged_and_compare(self):
        self.refused("judged.py", CASE) if not (TOP / "crates/refcli/out/refcli").exists() else None
        self.refused("judged.py", "/no/such/file")
        self.assertIn("No such file", called("compare", "--refcli", "/bin/false", "/no/such/folder")[1])

    def test_interrupted(self):
        """Each that waits for its input says nothing and ends in 130."""
        for words in ["read_text"], ["draw_match"], ["where", "--dispute", "1", str(CASE)]:
            child = subprocess.Popen(
                [sys.executable, str(TOOLS / words[0]), *words[1:]], stdin=subprocess.PIPE, stdout=subprocess.PIPE, stderr=subprocess.PIPE,
                # What a shell runs in the background ignores the signal, and so would a child of it.
                preexec_fn=lambda: signal.signal(signal.SIGINT, signal.default_int_handler),
            )  # fmt: skip
            for _ in range(600):
                # It waits for standard input, so that all is imported.
                time.sleep(0.05)
                if is_waiting(child.pid):
                    break
            child.send_signal(signal.SIGINT)
            out, err = child.communicate(timeout=60)
            self.assertEqual((child.returncode, out, err), (130, b"", b""), words)

    def test_nobody_reads(self):
        reading, writing = os.pipe()
        os.close(reading)
        done = subprocess.run([sys.executable, str(TOOLS / "draw_match")], input=REPORT, stdout=writing, stderr=subprocess.PIPE)
        os.close(writing)
        self.assertEqual((done.returncode, done.stderr), (1, b""))


def is_waiting(process):
    """Whether a process waits for its standard input, a pipe."""
    try:
        return "pipe" in pathlib.Path(f"/proc/{process}/wchan").read_text() or pathlib.Path(f"/proc/{process}/syscall").read_text().startswith("0 0x0 ")
    except OSError:
        return False
