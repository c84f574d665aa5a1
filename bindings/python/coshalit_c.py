"""The proved referee of Coshalit from Python, over the shared library libcoshalit_c.so, by ctypes. It takes no other package.

- `check_step`: the ruling on the proof of one step; `claim_root`: the root by which claims are compared;
- `audit`, `run`, `listing`: the program's commands on bytes in memory;
- `Match`: a match among parties of one's own, as a log of posts;
- `Prover`: the true answers of a case's own run.

The library is the file that COSHALIT_LIBRARY names, else libcoshalit_c.so beside this module, else the system's; `load` takes another one.
What is proved ends at the library. This module passes bytes, and gives refusals as exceptions; include/coshalit.h says what each call
promises. What is taken as bytes may also be a bytearray or a memoryview; of anything else it is a TypeError. All other refusals are an
Error, also those of numbers that a sender chose. Functions and Provers may be used by several threads at the same time; a Match belongs to
one thread.

A call can't be stopped, and its memory can't be bounded from here, as the shared library has heap.c inside. So bound the cases and the
texts that you give it. Call it in a process of its own, in which `resource.setrlimit(resource.RLIMIT_AS, ..)` limits the memory, and end that
process if a call takes too long. `run` and `Prover.answer` make their call a second time if the answer has more than 4,096 bytes.
"""
import ctypes
import dataclasses
import enum
import os
import pathlib
import struct

ROOT_BYTES = 32
# A match has at most so many provers, and so many open questions.
MOST_PROVERS = 16
# How many bytes a text may have, where no length is known beforehand, before a call is made a second time for it.
FIRST_ROOM = 4096
# How many bytes include/coshalit.h adds to most rooms: a refusal has no more.
OF_A_REFUSAL = 64


class Status(enum.IntEnum):
    """The statuses of commands and matches. Take one that isn't listed for a refusal."""

    DONE = 0
    NOT_ASKED = 2
    BAD_CASE = 3
    BAD_IMAGE = 4
    AUDIT_REFUSED = 8
    OUT_OF_MEMORY = 9
    NONE_LEFT = 10
    COLLISION = 11
    TOO_LONG = 12
    STILL_OPEN = 13
    BAD_NUMBERS = 14
    BAD_LOG = 15


class Ruling(enum.IntEnum):
    """Why the proof of a step is refused."""

    NOT_OPEN = 1
    WRONG_SHAPE = 2
    NO_PROOF = 3
    WRONG_LENGTH = 4


class Reply(enum.IntEnum):
    """What came of a post. By a taken one the answer or the pass counts, also for a proof that will be refuted. A faulty one is an answer of
    another kind than asked, a list of another length, or an unsound claim. A spent one is a pass more than the patience allows. By a faulty
    or a spent one its prover is out: by a claim at once, in a dispute as soon as the other side of the round is settled. A stale one names
    no open question of its prover, and changes nothing."""

    TAKEN = 1
    FAULTY = 2
    SPENT = 3
    STALE = 4


class Kind(enum.IntEnum):
    """What is asked for. A proof is of the kind 3 in each version of the commitments."""

    CLAIM = 1
    ROOT = 2
    PROOF = 3
    ROOTS = 5


class Verdict(enum.Enum):
    """How a match ended: a claim is accepted, nobody is left, or two different strings with one digest were shown. Each counts as true, so
    `while not match.verdict` ends."""

    ACCEPTED = 0
    NONE_LEFT = 10
    COLLISION = 11


class Error(Exception):
    """The library gives no answer."""


class BadValue(Error, ValueError):
    """What is given can't be passed on: a number that is no int or is beyond the type of the header, or a root that hasn't 32 bytes."""


class StepRefused(Error):
    """The proof of a step is refused, by the first condition that fails."""

    def __init__(self, ruling):
        super().__init__(Ruling(ruling).name.lower().replace("_", " ") if ruling in list(Ruling) else f"ruling {ruling}")
        self.ruling = ruling


class ClaimRefused(Error):
    """A claim has no root: 1 it isn't sound, 3 the bytes are no claim, 4 a length is wrong, 9 memory ran out."""

    def __init__(self, status):
        super().__init__({1: "the claim isn't sound", 3: "the bytes are no claim"}.get(status, f"status {status}"))
        self.status = status


class Refused(Error):
    """A command, a prover or a match gives no answer. `text` is what the program writes, such as `fault case 5 bound` and a newline."""

    def __init__(self, status, text=""):
        named = Status(status).name.lower().replace("_", " ") if status in list(Status) else f"status {status}"
        super().__init__(text.rstrip("\n") or named)
        self.status, self.text = status, text


class NoLog(Error):
    """Bytes are no log from the byte `at` on. `cause`: 1 they end within an entry, 2 no prover has the number, 3 the answer's bytes are no
    wire form, and then `rule` is the number of the fault in the table of docs/COMMITMENTS.md ('Wire forms')."""

    def __init__(self, at, cause, rule):
        super().__init__(f"no log from byte {at} on: cause {cause}" + (f", rule {rule}" if rule else ""))
        self.at, self.cause, self.rule = at, cause, rule


class Unknown(Error):
    """Of a match the library says something that this module doesn't know: it is of a later major version. The match is as it was."""

    def __init__(self, what, number):
        super().__init__(f"this module knows no {what} {number}")
        self.what, self.number = what, number


# The structures of include/coshalit.h


class _Numbers(ctypes.Structure):
    _fields_ = [(name, ctypes.c_uint32) for name in ("version", "provers", "fan", "patience")]
    _fields_ += [("bound", ctypes.c_uint64), ("start", ctypes.c_uint8 * ROOT_BYTES)]


class _Question(ctypes.Structure):
    _fields_ = [(name, ctypes.c_uint32) for name in ("prover", "dispute", "round", "kind", "parts", "passes")]
    _fields_ += [("low", ctypes.c_uint64), ("high", ctypes.c_uint64)]


class _Match(ctypes.Structure):
    _fields_ = [(name, ctypes.c_uint32) for name in ("reply", "accepted", "asked", "cause", "rule")] + [("at", ctypes.c_uint64)]


class _Answer(ctypes.Structure):
    _fields_ = [("status", ctypes.c_uint32), ("length", ctypes.c_size_t)]


_WORD, _WIDE, _SIZE, _BYTES = ctypes.c_uint32, ctypes.c_uint64, ctypes.c_size_t, ctypes.c_char_p
_WIDES = ctypes.POINTER(_WIDE)
_LOG = (ctypes.POINTER(_Numbers), _BYTES, _SIZE)
_STAKED = (ctypes.POINTER(_Numbers), _WIDE, _BYTES, _SIZE, _WIDES, _SIZE, _WIDES)
_CALLS = {
    "version": (_WORD, ()),
    "check_step": (_WORD, (_WORD, _BYTES, _SIZE, _BYTES, _SIZE, _BYTES, _SIZE)),
    "claim_root": (_WORD, (_BYTES, _SIZE, _BYTES, _SIZE)),
    "audit": (_Answer, (_BYTES, _SIZE, _BYTES, _SIZE)),
    "run": (_Answer, (_BYTES, _SIZE, _BYTES, _SIZE)),
    "list": (_Answer, (_BYTES, _SIZE, _BYTES, _SIZE)),
    "match": (_WORD, (*_LOG, ctypes.POINTER(_Match), ctypes.POINTER(_Question), _SIZE)),
    "match_text": (_Answer, (*_LOG, _BYTES, _SIZE)),
    "match_balances": (_WORD, _STAKED),
    "match_burned": (_WORD, _STAKED),
    "start_root": (_Answer, (_BYTES, _SIZE, _BYTES, _SIZE)),
    "roots_at": (_Answer, (_BYTES, _SIZE, _WIDES, _SIZE, _BYTES, _SIZE)),
    "answer": (_Answer, (_BYTES, _SIZE, _WORD, _WIDE, _WIDE, _WORD, _BYTES, _SIZE)),
}
_calls = {}


def load(path):
    """Takes the calls of this shared library from here on. It's an OSError if it isn't one, and an AttributeError if it lacks a call."""
    try:
        library = ctypes.CDLL(os.fspath(path))
    except OSError as why:
        raise OSError(f"{why}: bindings/python/build makes libcoshalit_c.so, and COSHALIT_LIBRARY names it") from why
    calls = {}
    for name, (result, arguments) in _CALLS.items():
        calls[name] = getattr(library, f"coshalit_{name}")
        calls[name].restype, calls[name].argtypes = result, arguments
    # All at once: another thread may be about to call, and a library that lacks a call takes the place of none.
    _calls.update(calls)


def _number(value, kind=_WIDE):
    """The number, if C's type holds it: ctypes would cut it."""
    if not isinstance(value, int) or not 0 <= value < 1 << 8 * ctypes.sizeof(kind):
        raise BadValue(f"no number of {8 * ctypes.sizeof(kind)} bits")
    return value


def _bytes(value):
    """The bytes of a value that has some: neither a number nor a text."""
    return value if isinstance(value, bytes) else bytes(memoryview(value))


def _call(name, *arguments):
    if not _calls:
        beside = pathlib.Path(__file__).with_name("libcoshalit_c.so")
        load(os.environ.get("COSHALIT_LIBRARY") or (beside if beside.is_file() else "libcoshalit_c.so"))
    return _calls[name](*arguments)


def _answered(name, size, *arguments):
    """What a call answers: its status and its whole text. It is called again if its text is longer than the first room."""
    room = ctypes.create_string_buffer(size)
    found = _call(name, *arguments, room, len(room))
    if found.length > len(room):
        room = ctypes.create_string_buffer(found.length)
        found = _call(name, *arguments, room, len(room))
    return found.status, room[: found.length]


def _done(name, size, given, *arguments):
    """The text of the answer to what is given, or the refusal that it is."""
    given = _bytes(given)
    status, text = _answered(name, size, given, len(given), *arguments)
    if status != Status.DONE:
        raise Refused(status, text.decode("ascii", "replace"))
    return text


def version():
    """The version of the library: major * 10000 + minor * 100 + patch. This module is written for 10000 and those after it with the same
    major number."""
    return _call("version")


def check_step(version, root, wire):
    """The root to which the proof of one step leads, from a root on which both sides agree, by SHA-256: 32 bytes. The proof is as it is
    sent, and the version that of the commitments, 1, 2 or 3. Otherwise it is StepRefused."""
    root, wire, following = _bytes(root), _bytes(wire), ctypes.create_string_buffer(ROOT_BYTES)
    ruling = _call("check_step", _number(version, _WORD), root, len(root), wire, len(wire), following, ROOT_BYTES)
    if ruling != 0:
        raise StepRefused(ruling)
    return following.raw


def claim_root(wire):
    """The root of a claim, from its wire form, by which a match compares claims: 32 bytes. Otherwise it is ClaimRefused."""
    wire, root = _bytes(wire), ctypes.create_string_buffer(ROOT_BYTES)
    status = _call("claim_root", wire, len(wire), root, ROOT_BYTES)
    if status != 0:
        raise ClaimRefused(status)
    return root.raw


def audit(text):
    """Audits a full text, as `judge --full` or `Match.text` gives it: the line `confirmed VERDICT`. Otherwise it is Refused.

    It is confirmed that the text is one of a legal match with this verdict, and no more. So compare its first line: the root with that of
    your case's start, the version and the bound with the case's, and provers, patience and fan with those that you agreed on. Refuse
    another digest than sha256."""
    text = _bytes(text)
    return _done("audit", len(text) + OF_A_REFUSAL, text).decode()


def run(case):
    """Runs the program of a case, a JSON text as bytes, up to the case's bound: the line `answer STATUS output BYTES`, or Refused. If the
    line has more than 4,096 bytes, the program is run a second time."""
    return _done("run", FIRST_ROOM, case).decode()


def listing(case):
    """Lists the image of a case, a JSON text as bytes, as assembly text: a line for each word, or Refused."""
    case = _bytes(case)
    return _done("list", 3 * len(case) + OF_A_REFUSAL, case).decode()


@dataclasses.dataclass(frozen=True)
class Numbers:
    """The numbers by which a match is played, by SHA-256. `version`, `bound` and `start` are those of the case that the parties agreed on:
    with others nothing is refused, and each prover that answers by the case may lose."""

    version: int  # of the commitments, 1 to 3
    provers: int  # 1 to 16
    fan: int  # into how many parts a round cuts its interval at most, 2 to 16
    patience: int  # how many passes a question allows, 0 to 100
    bound: int  # how many steps the run has, 1 to 4,294,967,295
    start: bytes  # the root of the state at step 0: Prover.start_root


@dataclasses.dataclass(frozen=True)
class Question:
    """An open question of a match."""

    prover: int  # who is asked, from 1
    dispute: int  # with `round` the question's number; that of a claim is 0 and 0
    round: int
    kind: int  # a Kind
    parts: int = 0  # of several roots: into how many parts the interval is cut
    passes: int = 0  # how often the prover has passed on it
    low: int = 0  # the step of a root or a proof, or the interval's lower end
    high: int = 0  # the interval's upper end


@dataclasses.dataclass(frozen=True)
class Settlement:
    """What each prover has, in the order of the provers, and what is in the pool or is burned."""

    balances: tuple
    pool: int


class Match:
    """A match: its numbers, its log, and what it has come to.

    The log is what one stores, orders, signs and compares: who has the same numbers and the same log has the same match. It grows by `post`
    and `pass_` only. WHOEVER MAY CALL THESE WITH A PROVER'S NUMBER CAN LOSE THAT PROVER'S MATCH: authenticate senders. The match is played
    anew at each call: docs/OPEN_MATCH.md says what that costs, and what a host has to do. A Match belongs to one thread: give another one
    the log."""

    def __init__(self, numbers, log=b""):
        """A match of these Numbers that nobody has posted in, or the one after a log that was stored. BadValue or Refused if a number is
        beyond its limit, Refused if memory ran out, and NoLog if the bytes are no log. The log up to `at` is one. If `at` is in the entry
        that was written last, a crash has cut that: cut the stored log there too, and resume with the rest."""
        words = [_number(value, _WORD) for value in (numbers.version, numbers.provers, numbers.fan, numbers.patience)]
        start = _bytes(numbers.start)
        if len(start) != ROOT_BYTES:
            raise BadValue(f"a root has {ROOT_BYTES} bytes")
        self._numbers = _Numbers(*words, _number(numbers.bound), (ctypes.c_uint8 * ROOT_BYTES)(*start))
        self._play(_bytes(log))

    @property
    def log(self):
        return self._log

    @property
    def questions(self):
        """The open ones, in the order of their provers; none if the match is over."""
        return self._questions

    @property
    def verdict(self):
        """How the match ended, a Verdict, or None while a question is open."""
        return None if self._status == Status.STILL_OPEN else Verdict(self._status)

    @property
    def accepted(self):
        """The number of the prover whose claim is accepted, or 0. The status and the output that are accepted are those of this prover's
        claim in the log, and are in the last line of the text."""
        return self._found.accepted

    def post(self, prover, dispute, round_, answer):
        """Appends the bytes that a prover sends as its answer to a question, and plays on: the Reply. The prover is the one that sent them:
        never take its number from what was sent. Dispute and round are those that the sender names under its signature, or those of the
        question that you sent it. Never take those that are open now: a late answer to the question before would become an answer to this
        one.

        NoLog if no prover has the number, or if the bytes are no wire form, as empty ones are: they are no answer and no pass. BadValue if
        a number, or the length of the answer, is none of 32 bits. Refused if memory ran out, and then the same post may be tried again.
        After an error the match is as it was."""
        answer = _bytes(answer)
        if not answer:
            # As the library says of other bytes that are no wire form: the prover's number is looked at first.
            is_prover = 1 <= _number(prover, _WORD) <= self._numbers.provers
            raise NoLog(len(self._log), 3 if is_prover else 2, 1 if is_prover else 0)
        return self._append(prover, dispute, round_, answer)

    def pass_(self, prover, dispute, round_):
        """Appends a pass of a prover that is late: the Reply. Append one for each full period without an answer. How long a period is you
        choose; the match counts passes, and not time. A prover is out by one pass more than the patience. Errors are as of `post`."""
        return self._append(prover, dispute, round_, b"")

    def text(self):
        """The full text of a match that is over, as bytes, which anybody can audit; None while a question is open."""
        log = self._log
        status, text = _answered("match_text", 4 * len(log) + 1024, ctypes.byref(self._numbers), log, len(log))
        return text if self._is_over(status) else None

    def balances(self, stake):
        """What the provers of a match that is over have, if each put down this stake, by the Settlement in which one that is lost in a
        dispute goes to the other side, or to the pool; None while a question is open. BadValue or Refused if the stake is beyond its
        limit."""
        return self._settled("match_balances", stake)

    def burned(self, stake):
        """As `balances`, by the settlement that burns each stake that is lost."""
        return self._settled("match_burned", stake)

    def _settled(self, name, stake):
        balances, pool = (_WIDE * MOST_PROVERS)(), _WIDE()
        log = self._log
        status = _call(name, ctypes.byref(self._numbers), _number(stake), log, len(log), balances, MOST_PROVERS, ctypes.byref(pool))
        return Settlement(tuple(balances[: self._numbers.provers]), pool.value) if self._is_over(status) else None

    def _is_over(self, status):
        if status not in (Status.STILL_OPEN, *(verdict.value for verdict in Verdict)):
            raise Refused(status)
        return status != Status.STILL_OPEN

    def _append(self, prover, dispute, round_, answer):
        words = [_number(value, _WORD) for value in (prover, dispute, round_, len(answer))]
        self._play(self._log + struct.pack("<IIII", *words) + answer)
        return Reply(self._found.reply)

    def _play(self, log):
        """Finds what the match has come to after this log, and takes the log. After a refusal the match is as it was."""
        found, asked = _Match(), (_Question * MOST_PROVERS)()
        status = _call("match", ctypes.byref(self._numbers), log, len(log), ctypes.byref(found), asked, MOST_PROVERS)
        if status == Status.BAD_LOG:
            raise NoLog(found.at, found.cause, found.rule)
        self._is_over(status)
        if log and found.reply not in list(Reply):
            raise Unknown("reply", found.reply)
        questions = [Question(**{name: getattr(one, name) for name, _ in _Question._fields_}) for one in asked[: found.asked]]
        for question in questions:
            if question.kind not in list(Kind):
                raise Unknown("kind", question.kind)
        self._status, self._found, self._log, self._questions = status, found, log, questions


class Prover:
    """The true answers of the run of a case, a JSON text as bytes. In a match with the case's version, bound and start root, a prover that
    posts what it gives, in time, is never out if nobody else posts in its name.

    Nothing is kept between two calls. Each makes a tree of all pages of the image, and all but `start_root` run the program from step 0 on.
    With the fan 2 that is up to 34 answers for the claim and one dispute. So for a long run fetch many roots at once by `roots_at`, and
    send those that are asked for: the wire form of a root is the byte 2 and the root's 32 bytes."""

    def __init__(self, case):
        self.case = _bytes(case)

    def start_root(self):
        """The root of the state in which the run starts, the `start` of a match of the case: 32 bytes, or Refused."""
        return _done("start_root", OF_A_REFUSAL, self.case)

    def roots_at(self, steps):
        """The roots of the states after these many steps each, in the order in which the steps are given; all are reached by one run.
        Refused if a step is above the bound, and BadValue if it is no number of 64 bits."""
        room = ROOT_BYTES * len(steps) + OF_A_REFUSAL
        text = _done("roots_at", room, self.case, (_WIDE * len(steps))(*map(_number, steps)), len(steps))
        return [text[at : at + ROOT_BYTES] for at in range(0, len(text), ROOT_BYTES)]

    def answer(self, question):
        """The true answer to a Question of a match of the case, as a wire form; Refused if no match of the case asks it, and BadValue if one
        of its numbers is beyond the type of the header. It makes a tree of the image, and runs the program up to the step that is asked. It
        does so twice for a claim whose output has more than 3,974 bytes."""
        kind, parts = _number(question.kind, _WORD), _number(question.parts, _WORD)
        return _done("answer", FIRST_ROOM, self.case, kind, _number(question.low), _number(question.high), parts)
