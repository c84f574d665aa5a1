"""What the checks of this folder share: processes that are ended where they take too long or print too much, what `run` answers, and
programs in C that are built for its machine."""
from __future__ import annotations

import argparse
import concurrent.futures
import json
import os
import pathlib
import re
import selectors
import shutil
import signal
import subprocess
import sys
import tempfile
import threading
import time
from typing import Callable, Iterable, Iterator, NamedTuple, NoReturn, Optional, Sequence, TypeVar, Union

HERE = pathlib.Path(__file__).resolve().parent
sys.path.insert(1, str(HERE.parent))
import checking  # noqa: E402
from checking import stop  # noqa: E402

GCC = "riscv64-unknown-elf-gcc"
AR = "riscv64-unknown-elf-ar"
# Debian's packages of what the checks call.
PACKAGES = {
    GCC: "gcc-riscv64-unknown-elf picolibc-riscv64-unknown-elf",
    AR: "binutils-riscv64-unknown-elf",
    "cc": "gcc libc6-dev",
    "lua5.4": "lua5.4",
    "csmith": "csmith libcsmith-dev",
    "qemu-riscv32": "qemu-user",
    "llvm-mc": "llvm",
}
# The machine, and a position of its own for everything, as `programs.ld` lays it out.
MACHINE = ["--specs=picolibc.specs", "-march=rv32im", "-mabi=ilp32"]
# Much more than any program here writes; a run that writes more is ended.
MOST_BYTES = 1 << 20

Word = Union[str, pathlib.Path]
Item = TypeVar("Item")
Result = TypeVar("Result")


def need(*commands: str) -> None:
    for command in commands:
        if shutil.which(command) is None:
            stop(f"there is no {command} here (Debian: apt-get install {PACKAGES[command]})")


# Processes


class Ended(NamedTuple):
    """How a process ended: its status, or None and why it was ended; and what it wrote to standard output."""

    status: Optional[int]
    written: bytes
    why: str


_running: set[subprocess.Popen[bytes]] = set()
_lock = threading.Lock()
_is_over = False


def _end(process: subprocess.Popen[bytes]) -> None:
    try:
        os.killpg(process.pid, signal.SIGKILL)
    except ProcessLookupError:
        pass


def end_all() -> None:
    """Ends whatever runs, and lets nothing more begin."""
    global _is_over
    with _lock:
        _is_over = True
        for process in _running:
            _end(process)


def _read(process: subprocess.Popen[bytes], seconds: float, most: int) -> tuple[bytes, str]:
    """What it writes until it closes its output, and why that was cut, if it was."""
    assert process.stdout is not None
    until = time.monotonic() + seconds
    written = bytearray()
    with selectors.DefaultSelector() as selector:
        selector.register(process.stdout, selectors.EVENT_READ)
        while True:
            left = until - time.monotonic()
            if left <= 0 or not selector.select(left):
                return bytes(written), f"no end within {seconds:g} seconds"
            part = os.read(process.stdout.fileno(), 65536)
            if not part:
                return bytes(written), ""
            written += part
            if len(written) > most:
                return bytes(written[:most]), f"more than {most:,} bytes written"


def ended(words: Sequence[Word], given: bytes = b"", seconds: float = 60, most: int = MOST_BYTES, folder: Optional[pathlib.Path] = None) -> Ended:
    """Runs a command with these bytes on standard input. It and what it started are ended after so many seconds, or where it writes more
    than so many bytes."""
    with tempfile.TemporaryFile() as source:
        source.write(given)
        source.seek(0)
        with _lock:
            if _is_over:
                return Ended(None, b"", "not begun")
            try:
                process = subprocess.Popen(
                    [str(word) for word in words], stdin=source, stdout=subprocess.PIPE, stderr=subprocess.DEVNULL, start_new_session=True, cwd=folder,
                )  # fmt: skip
            except OSError as fault:
                return Ended(None, b"", f"{words[0]} can't be run: {fault.strerror}")
            _running.add(process)
    try:
        begun = time.monotonic()
        written, why = _read(process, seconds, most)
        if not why:
            try:
                process.wait(max(0.1, seconds - (time.monotonic() - begun)))
            except subprocess.TimeoutExpired:
                why = f"no end within {seconds:g} seconds"
    finally:
        _end(process)
        process.wait()
        assert process.stdout is not None
        process.stdout.close()
        with _lock:
            _running.discard(process)
    return Ended(None if why else process.returncode, written, why)


def side_by_side(jobs: int, work: Callable[[Item], Result], items: Iterable[Item]) -> Iterator[Result]:
    """The results in the order of the items, of which so many are worked on at one time."""
    with concurrent.futures.ThreadPoolExecutor(jobs) as pool:
        try:
            yield from pool.map(work, items)
        except BaseException:
            end_all()
            pool.shutdown(cancel_futures=True)
            raise


# The program


class Run(NamedTuple):
    """What `run` answers: the status in words and the output, or None and what came in their place."""

    status: Optional[str]
    output: bytes
    came: str


def case_of(
    image: bytes, bound: int, provers: Sequence[object] = ({},), form: str = "elf", version: int = 1, given: bytes = b""
) -> bytes:
    case = {"format": form, "image": image.hex(), "input": given.hex(), "bound": bound, "patience": 0, "version": version, "provers": list(provers)}
    return json.dumps(case).encode()


def run_of(program: pathlib.Path, case: bytes, seconds: float) -> Run:
    done = ended([program, "run"], case, seconds)
    text = done.written.decode(errors="backslashreplace")
    found = re.fullmatch("answer (running|(?:exited|trapped) [0-9]+) output(?: ([0-9a-f]+))?\n", text)
    if done.status != 0 or found is None:
        return Run(None, b"", done.why or f"status {done.status}, {text[:100]!r}")
    return Run(found[1], bytes.fromhex(found[2] or ""), text.rstrip("\n"))


# Programs in C


class Compiler:
    """gcc with picolibc for the machine. What a program needs of its surroundings is compiled once, into `folder`, with these options."""

    def __init__(self, folder: pathlib.Path, options: Sequence[str] = ()):
        need(GCC, AR)
        self.folder = folder
        parts = []
        for source in ("start.S", "_exit.c", "abort.c", "streams.c"):
            part = (folder / source).with_suffix(".o")
            self._must([GCC, *MACHINE, "-Os", "-Wall", "-Wextra", "-Werror", *options, "-c", HERE / source, "-o", part])
            parts.append(part)
        self._must([AR, "rcs", folder / "libmachine.a", *parts[1:]])

    def _must(self, words: Sequence[Word]) -> None:
        if subprocess.run(words, stdin=subprocess.DEVNULL).returncode != 0:
            stop(f"{words[0]} failed (Debian: apt-get install {PACKAGES[GCC]})")

    def build(self, source: pathlib.Path, options: Sequence[str], target: pathlib.Path, seconds: float) -> str:
        """Makes a stripped executable. Says why it couldn't, or nothing."""
        words = [
            GCC, *MACHINE, "-w", *options, source, self.folder / "start.o", self.folder / "libmachine.a", "-o", target,
            "-nostartfiles", "-T", HERE / "programs.ld", f"-L{self.folder}", "--oslib=machine", "-lm", "-s",
            # `abort` is ours, in whatever order the libraries are searched. Pages fit those of Linux, for QEMU.
            "-Wl,-u,abort,-z,max-page-size=4096,--build-id=none",
        ]  # fmt: skip
        # The reason is on standard error, which is read as output.
        done = ended(["sh", "-c", 'exec "$@" 2>&1', "sh", *words], seconds=seconds, folder=self.folder)
        if b"relocation truncated to fit: R_RISCV_GPREL" in done.written:
            # The linker shortened an address that is then too far from `gp`. It is told not to shorten any.
            done = ended(["sh", "-c", 'exec "$@" 2>&1', "sh", *words, "-Wl,--no-relax"], seconds=seconds, folder=self.folder)
        if done.why:
            return done.why
        if done.status == 0:
            return ""
        lines = done.written.decode(errors="replace").splitlines()
        telling = [line for line in lines if re.search("error|undefined|overflow|multiple definition", line)] or lines or ["no reason"]
        return re.sub("^.*?(error: |undefined |multiple definition )", r"\1", telling[0])[:160]


# Arguments


def parser_of(text: Optional[str]) -> argparse.ArgumentParser:
    """The options that each check of this folder has; `checking.with_program` reads them."""
    parser = checking.parser_of(text)
    parser.add_argument("--jobs", type=positive, metavar="N", default=os.cpu_count() or 1, help="how many are worked on at one time; as many as processors")
    parser.add_argument("--seconds", type=positive, metavar="S", default=60, help="a process is ended after so many seconds; 60")
    return parser


def positive(text: str) -> int:
    if not re.fullmatch("[0-9]{1,9}", text) or int(text) == 0:
        raise argparse.ArgumentTypeError(f"{text!r} isn't a number above 0")
    return int(text)


def checked(main: Callable[[], int]) -> NoReturn:
    """Runs `main` and ends with its status; whatever still runs is ended."""
    for number in (signal.SIGTERM, signal.SIGHUP):
        signal.signal(number, lambda number, _: sys.exit(128 + number))
    try:
        sys.exit(main())
    except KeyboardInterrupt:
        sys.exit(130)
    except BrokenPipeError:
        os.dup2(os.open(os.devnull, os.O_WRONLY), 1)
        sys.exit(1)
    finally:
        end_all()
