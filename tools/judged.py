#!/usr/bin/env python3
"""Calls refcli from Python, and reads its report: who is out and why, and which status and output are accepted.

    tools/judged.py CASE [OPTION ..]     a file with one case, and options of `refcli judge`

It needs the built program (`checks/build`). `judged` takes its path, and can be called from a program of one's own."""
import pathlib
import subprocess
import sys
from typing import Dict, Optional, Tuple

# No folder of compiled modules beside the sources.
sys.dont_write_bytecode = True
from coshalit import cases, process, reports  # noqa: E402

PROGRAM = str(pathlib.Path(__file__).resolve().parent.parent / "crates/refcli/out/refcli")
ACCEPTED, NONE_LEFT = 0, 10
Accepted = Optional[Tuple[str, bytes]]


def judged(case: bytes, *options: str, program: str = PROGRAM) -> Tuple[Accepted, Dict[int, str]]:
    """The accepted status and output of one case's match, or None if nobody is left; and why each prover is out, by number."""
    done = subprocess.run([program, "judge", *options], input=case, capture_output=True)
    text = done.stdout.decode("latin-1")
    if done.returncode not in (ACCEPTED, NONE_LEFT):
        # A fault, a collision (its line is the evidence), a device that failed, or too little memory.
        raise RuntimeError(f"status {done.returncode} {text.strip()}")
    if text.startswith("task "):
        raise ValueError("these are tasks, not one case")
    try:
        match = reports.read(text)
    except reports.NoReport as fault:
        raise ValueError(str(fault)) from None
    status, _, output = match.verdict.removeprefix("accept ").partition(" output")
    return (None if done.returncode == NONE_LEFT else (status, bytes.fromhex(output))), match.out()


def main() -> int:
    if sys.argv[1:2] in (["-h"], ["--help"]):
        print(__doc__)
        return 0
    if not sys.argv[1:]:
        print(__doc__, file=sys.stderr)
        return 2
    try:
        accepted, out = judged(process.bytes_of_file(sys.argv[1], cases.MAX_TEXT_BYTES, "a case"), *sys.argv[2:])
    except (RuntimeError, ValueError) as error:
        process.stop(process.shown(str(error), 200))
    except OSError as fault:
        process.stop(f"{PROGRAM}: {process.why_not(fault)}")
    for prover, why in out.items():
        print(f"prover {prover} is out: {why}")
    if accepted is None:
        print("nobody is left")
    else:
        print(f"{accepted[0]}, with the output {accepted[1]!r}")
    return 0


if __name__ == "__main__":
    process.end("judged.py", main)
