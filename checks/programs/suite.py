"""gcc's torture suite, gcc.c-torture/execute, from Debian's package gcc-12-source: self-checking programs, and the options they ask for."""
from __future__ import annotations

import pathlib
import re
import tarfile
from typing import Optional

from checking import stop

ARCHIVES = pathlib.Path("/usr/src/gcc-12")
FOLDER = "gcc/testsuite/gcc.c-torture/execute/"
# Selectors of options that aren't for this machine, and those that are.
ELSEWHERE = re.compile("i[?]86|x86_64|powerpc|loongarch|newlib_nano_io|hppa")
HERE_TOO = re.compile("target fpic|target [{] ! signal")


def unpack(folder: pathlib.Path, sources: Optional[pathlib.Path]) -> pathlib.Path:
    """The folder with the programs: `sources`, or `folder`, to which the package's archive is unpacked."""
    if sources is not None:
        if not any(sources.glob("*.c")):
            stop(f"{sources} has no programs in C")
        return sources.absolute()
    archives = sorted(ARCHIVES.glob("gcc-12*.tar.xz"))
    if not archives:
        stop(f"there is no {ARCHIVES}/gcc-12*.tar.xz here (Debian: apt-get install gcc-12-source)")
    with tarfile.open(archives[0]) as archive:
        for member in archive:
            inside = member.name.partition("/")[2]
            if inside.startswith(FOLDER) and inside.endswith(".c") and "/" not in inside[len(FOLDER) :]:
                content = archive.extractfile(member)
                if content is not None:
                    (folder / pathlib.PurePath(inside).name).write_bytes(content.read())
    return folder


def options_of(source: pathlib.Path) -> list[str]:
    """The options that a program asks for, where they are for every processor or for this one."""
    text = source.read_bytes().decode(errors="replace")
    options: list[str] = []
    for asked, selector in re.findall(r'dg-(?:additional-)?options\s+(?:\{\s*)?"([^"]*)"\s*(\{.*)?', text):
        if selector.startswith("{") and not HERE_TOO.search(selector):
            if ELSEWHERE.search(selector):
                continue
            stop(f"{source.name} asks for options of a selector that isn't known: {selector}")
        options += asked.split()
    return options
