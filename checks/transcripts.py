"""What the transcripts of examples/ and guest/ say, for the checks that run the program on their cases.

Which cases are decided is read here, and is never asked of the program that is checked: a program that refuses all of them fails.
"""
import json
import os
import re
import shlex
import subprocess

from checking import DECIDED, TOP, run

FOLDERS = ["examples", "guest"]


class Malformed(Exception):
    """A transcript isn't in the form that checks/examples describes."""


class Command:
    def __init__(self, line, arguments, file):
        self.line = line  # as it stands in the transcript, without `$ `
        self.arguments = arguments  # those after `refcli`
        self.file = file  # the name after `<`, or None
        self.text = ""
        self.status = None


def command_of(line):
    try:
        words = shlex.split(line)
    except ValueError as error:
        raise Malformed(f"`{line}`: {error}")
    if not words or words[0] != "refcli":
        raise Malformed(f"`{line}` isn't a command of refcli")
    kept, files = [], []
    rest = iter(words[1:])
    for word in rest:
        if word.startswith("<"):
            files.append(word[1:] or next(rest, ""))
        else:
            kept.append(word)
    if len(files) > 1 or "" in files:
        raise Malformed(f"`{line}` has a redirection that isn't `<FILE`")
    return Command(line, kept, files[0] if files else None)


def commands_of(transcript):
    """The commands of a transcript, in order."""
    text = transcript.read_bytes().decode(errors="surrogateescape")
    if not text.endswith("\n"):
        raise Malformed("its last line has no line feed")
    commands, open_command = [], None
    for number, line in enumerate(text[:-1].split("\n"), 1):
        status = re.fullmatch("status ([0-9]+)", line)
        if open_command is None:
            if not line.startswith("$ "):
                raise Malformed(f"line {number} isn't `$ refcli ..`")
            open_command = command_of(line[2:])
        elif status:
            open_command.status = int(status[1])
            commands.append(open_command)
            open_command = None
        elif line.startswith("$ "):
            raise Malformed(f"line {number}: the command before has no status")
        else:
            open_command.text += line + "\n"
    if open_command is not None:
        raise Malformed("its last command has no status")
    return commands


def files():
    """The files below the folders that git tracks, or, outside a checkout, all of them."""
    try:
        tracked = subprocess.run(["git", "ls-files", "-z", "--", *FOLDERS], cwd=TOP, capture_output=True)
    except OSError:
        tracked = None
    if tracked is not None and tracked.returncode == 0 and tracked.stdout:
        return sorted(TOP / os.fsdecode(name) for name in tracked.stdout.split(b"\0")[:-1])
    return sorted(path for folder in FOLDERS for path in (TOP / folder).rglob("*"))


def transcripts():
    return [path for path in files() if path.name == "transcript.txt"]


def texts_of_transcripts():
    """The text of each command of each transcript, with its folder's name."""
    for path in transcripts():
        for command in commands_of(path):
            yield path.parent.name, command.text


class Case:
    """A case whose match is decided, as a transcript says."""

    def __init__(self, path, tree):
        self.path, self.tree = path, tree
        self.data = path.read_bytes()
        self.told = {}  # by the arguments after `refcli`: the status and the bytes that the transcript has

    def name(self):
        return str(self.path.relative_to(TOP))

    def tasks(self):
        """The cases that it is made of: itself, or its tasks."""
        return self.tree.get("tasks", [self.tree])


def is_decided(command):
    """Whether a command shows that the match of its case is decided: it is, or the case and its program are read whole."""
    word = command.arguments[:1]
    return word == ["judge"] and command.status in DECIDED or word == ["run"] and command.status == 0


def decided_cases():
    """The cases that a transcript shows to be decided, by their paths; that of the same case in another folder serves as well."""
    cases, shown = [], set()
    for transcript in transcripts():
        by_file = {}
        for command in commands_of(transcript):
            if command.file is not None and command.file.endswith(".json"):
                by_file.setdefault(command.file, []).append(command)
        for file, commands in by_file.items():
            path = transcript.parent / file
            try:
                tree = json.loads(path.read_bytes())
            except ValueError:
                continue
            if not isinstance(tree, dict):
                continue
            case = Case(path, tree)
            for command in commands:
                case.told[tuple(command.arguments)] = command.status, command.text.encode(errors="surrogateescape")
            cases.append(case)
            if any(map(is_decided, commands)):
                shown.add(json.dumps(tree, sort_keys=True))
    return sorted((case for case in cases if json.dumps(case.tree, sort_keys=True) in shown), key=lambda case: case.path)


# Cases and their full texts, by what the program says


def case_files():
    """The JSON files of the examples and the guests, by their paths."""
    return sorted(path for folder in FOLDERS for path in (TOP / folder).glob("*/*.json"))


def cases_in(path):
    """The cases of a file: the one that it is, or those of its tasks; none if it is neither."""
    try:
        tree = json.loads(path.read_bytes())
    except ValueError:
        return []
    if not isinstance(tree, dict):
        return []
    return tree["tasks"] if isinstance(tree.get("tasks"), list) else [tree]


def full_texts_of(program):
    """Of each case whose match the program decides, and by both digests: its name, the digest, the report and the full text."""
    for path in case_files():
        for number, case in enumerate(cases_in(path), 1):
            data = json.dumps(case).encode()
            for digest in "sha256", "weak8":
                words = ["--digest", digest]
                status, report = run(program, ["judge", *words], data)
                if status in DECIDED:
                    name = f"{path.relative_to(TOP)}, case {number}"
                    yield name, digest, report.decode(), run(program, ["judge", "--full", *words], data)[1]
