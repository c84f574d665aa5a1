"""What the checks share: the program that they check, how they run it, and how they count.

Who imports this finds the modules of checks/, tools/ and bindings/python/ after it.
"""
from __future__ import annotations

import argparse
import importlib.machinery
import importlib.util
import os
import pathlib
import shutil
import subprocess
import sys
from types import ModuleType
from typing import AnyStr, Iterable, NoReturn, Optional, Sequence, Tuple, Union

CHECKS = pathlib.Path(__file__).resolve().parent
TOP = CHECKS.parent
sys.path[1:1] = [str(CHECKS), str(TOP / "tools"), str(TOP / "bindings/python")]
BUILT = TOP / "crates/refcli/out/refcli"
LIBRARY = TOP / "crates/coshalit_c/out/libcoshalit_c.a"
# The statuses of a match that is decided: a claim is accepted, nobody is left, or there is a collision.
DECIDED = (0, 10, 11)


def name_of_check() -> str:
    return pathlib.Path(sys.argv[0]).name


def stop(why: object) -> NoReturn:
    """Ends a check that can't be run, in status 2."""
    print(f"{name_of_check()}: {why}", file=sys.stderr)
    sys.exit(2)


def module_of(path: pathlib.Path) -> ModuleType:
    """A script without an ending as a module."""
    loader = importlib.machinery.SourceFileLoader(path.name, str(path))
    spec = importlib.util.spec_from_loader(path.name, loader)
    assert spec is not None
    module = importlib.util.module_from_spec(spec)
    loader.exec_module(module)
    return module


# Arguments


def parser_of(text: Optional[str]) -> argparse.ArgumentParser:
    """A parser of the arguments of a check, whose help is its text."""
    return argparse.ArgumentParser(description=text, formatter_class=argparse.RawDescriptionHelpFormatter, allow_abbrev=False)


def no_arguments(text: Optional[str]) -> None:
    """Takes no argument but `--help`."""
    parser_of(text).parse_args()


def program_of(given: Optional[pathlib.Path]) -> pathlib.Path:
    """The program that is given, or the built one. If it can't be run, or wasn't built of these sources, this ends in status 2."""
    # What the built one is lacking is said by checks/build.
    if given is None and subprocess.run([CHECKS / "build", "--is-built"]).returncode != 0:
        sys.exit(2)
    program = BUILT if given is None else given.absolute()
    if not program.is_file() or not os.access(program, os.X_OK):
        stop(f"{program} can't be run")
    return program


def with_program(parser: argparse.ArgumentParser) -> argparse.Namespace:
    """What the arguments say; `program` is the one to check, the built one if none is named."""
    parser.add_argument("program", nargs="?", metavar="PROGRAM", type=pathlib.Path)
    asked = parser.parse_args()
    asked.program = program_of(asked.program)
    return asked


def program_given(text: Optional[str]) -> pathlib.Path:
    """The program to check, of a check without other arguments."""
    program: pathlib.Path = with_program(parser_of(text)).program
    return program


# The program


def run(program: pathlib.Path, arguments: Sequence[Union[str, bytes]], data: bytes) -> Tuple[int, bytes]:
    """The status of a run, and the bytes that it writes."""
    done = subprocess.run([program, *arguments], input=data, stdout=subprocess.PIPE)
    return done.returncode, done.stdout


def last_line(text: AnyStr) -> AnyStr:
    """The last line of a text, with its line feed; nothing of an empty text."""
    return text.splitlines(keepends=True)[-1] if text else text[:0]


# The library, by its calls


def shared_library(library: pathlib.Path, folder: pathlib.Path) -> pathlib.Path:
    """The shared library that is made in a folder of the static one. If there is none to make, this ends in status 2."""
    if not library.is_file():
        stop(f"there is no {library}: `rt lib` in crates/coshalit_c makes it")
    if shutil.which("cc") is None:
        stop("there is no C compiler `cc` here")
    shared = folder / "libcoshalit_c.so"
    made = subprocess.run([TOP / "bindings/python/build", library, shared], stdout=subprocess.PIPE, stderr=subprocess.STDOUT, text=True)
    if made.returncode != 0:
        stop(f"no shared library can be made of {library}:\n{made.stdout}")
    return shared


def take_calls(library: pathlib.Path, folder: pathlib.Path) -> None:
    """Lets the module coshalit_c call a shared library that is made in a folder of the static one. If it can't, this ends in status 2."""
    import coshalit_c

    try:
        coshalit_c.load(shared_library(library, folder))
    except (AttributeError, OSError) as fault:
        stop(f"{library} isn't of include/coshalit.h: {fault}")


# Copies, in which nothing that is tried changes anything here


def copy_of_tracked(to: pathlib.Path, *paths: str) -> None:
    """Copies the files that git tracks, or those of these paths."""
    listed = subprocess.run(["git", "ls-files", "-z", "--", *paths], cwd=TOP, stdout=subprocess.PIPE)
    if listed.returncode != 0:
        stop("git can't list the files")
    for name in listed.stdout.decode().split("\0"):
        if name and (TOP / name).is_file():
            (to / name).parent.mkdir(parents=True, exist_ok=True)
            shutil.copy2(TOP / name, to / name)


def copy_of_crates(to: pathlib.Path) -> None:
    """Copies the crates, with the libraries that are proved here."""
    copy_of_tracked(to, "crates", "crates.txt", "HANDLES")
    for library in TOP.glob("crates/*/out/rlib"):
        shutil.copytree(library, to / library.relative_to(TOP), symlinks=True)
    subprocess.run(["git", "init", "-q", "."], cwd=to, check=True)


# Counting


class Count:
    """How many comparisons passed and failed."""

    def __init__(self) -> None:
        self.passed = self.failed = 0

    def add(self, name: str, fault: Optional[str]) -> None:
        """Counts one, and writes a line of it if it has a fault."""
        if fault:
            self.failed += 1
            print(f"{name}: {fault}", flush=True)
        else:
            self.passed += 1

    def add_all(self, faults: Iterable[Tuple[str, Optional[str]]]) -> None:
        for name, fault in faults:
            self.add(name, fault)

    def end(self) -> int:
        """Prints the last line and gives the status: 1 if one failed, and if nothing was compared."""
        print(f"{self.passed} passed, {self.failed} failed")
        if self.passed + self.failed == 0:
            print(f"{name_of_check()}: nothing was compared", file=sys.stderr)
        return 0 if self.passed and not self.failed else 1


def tell(lines: Iterable[str]) -> int:
    """Prints lines that say what is wrong, and gives the status: 1 if there is one."""
    found = list(lines)
    print("".join(f"{line}\n" for line in found), end="")
    return int(bool(found))
