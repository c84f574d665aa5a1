"""The largest matches, for `endurance` beside this file: their cases and options, their verdicts, and what they take."""
import collections
import json
import pathlib
import sys
import tempfile

from checking import TOP

sys.path.insert(1, str(TOP / "bench"))
import dispute_works  # noqa: E402
import measuring  # noqa: E402

PROVERS, MOST_TASKS = 16, 8
MAX_BOUND, MAX_INPUT, MAX_IMAGE = 16_777_216, 1_048_576, 4_194_304
# A tree over so many pages takes two million digests, and a dispute of 24 rounds has 92 of them a side.
MOST_PAGES = 8_192
# As most cases of examples/: outputs 2a and exits with 0.
PUTS_OUT_42 = "1305a0029308100073000000130500009308d00573000000"


# Cases


def case(image, provers, bound, given=b"", patience=0):
    return {
        "format": "flat", "image": image, "input": given.hex(), "bound": bound, "patience": patience, "provers": provers,
    }  # fmt: skip


def image_of(text):
    return measuring.image_of(text).hex()


def reg(step, register, value):
    return {"tamper": {"kind": "reg", "step": step, "reg": register, "value": value}}


def flip(step, address, mask):
    return {"tamper": {"kind": "flip", "step": step, "addr": address, "mask": mask}}


def silent(first):
    return {"manner": {"kind": "silent", "from": first}}


def late(passes):
    return {"manner": {"kind": "late", "passes": passes}}


STORES_ONE_PAGE = dispute_works.STORING_ON
# As `big`: adds up the input, stores each partial sum, puts out its two lowest bytes and exits, after 13 + 8 n steps.
ADDS_UP = """
          lui  x5, 0x40000     # the input: its length, and then its bytes
          lw   x6, 0(x5)
          addi x5, x5, 4
          lui  x7, 0x20
          addi x10, x0, 0
    byte: beq  x6, x0, end
          lbu  x8, 0(x5)
          add  x10, x10, x8
          sw   x10, 0(x7)
          addi x5, x5, 1
          addi x7, x7, 4
          addi x6, x6, -1
          jal  x0, byte
    end:  addi x17, x0, 1
          ecall
          srli x10, x10, 8
          ecall
          addi x10, x0, 0
          addi x17, x0, 93
          ecall
"""


def stores_pages(pages):
    """Stores a word to so many pages, one after the other, again and again, in four steps each."""
    high = pages + 0x800 >> 12
    return f"""
               lui  x6, 0x1         # the length of a page
               lui  x9, {high}
               addi x9, x9, {pages - (high << 12)}
        round: lui  x28, 0x20       # the page at 0x00020000
               add  x7, x9, x0
        page:  sw   x7, 0(x28)
               add  x28, x28, x6
               addi x7, x7, -1
               bne  x7, x0, page
               jal  x0, round
    """


def puts_out(count):
    """So many calls to put out a byte in a row, again and again; it never ends."""
    return "addi x17, x0, 1\naddi x10, x0, 42\nfirst: ecall\n" + "ecall\n" * (count - 1) + "jal x0, first\n"


# A large match: its name, its case, options, and its verdict.
Large = collections.namedtuple("Large", "name case options verdict")


def large_matches(part):
    """The extremes of a case, or this part of each."""
    bound, given = MAX_BOUND // part, bytes(1 + k * k % 251 for k in range(MAX_INPUT // part))
    total, steps = sum(given), 13 + 8 * len(given)
    summed = f"accept exited 0 output {total % 256:02x}{total // 256 % 256:02x}"
    running = "accept running output"
    pages = MOST_PAGES // part
    one_page, far = image_of(STORES_ONE_PAGE), ["--every", "65536"]
    yield Large("largest bound, a store in 6 steps", case(one_page, [{}, reg(bound // 3, 5, 2**31)], bound), [], running)
    yield Large("the same, E 65536, W 4", case(one_page, [{}, reg(bound // 3, 5, 2**31)], bound), ["--workers", "4", *far], running)
    yield Large("the same, changed at the last step", case(one_page, [reg(bound, 5, 2**31), {}], bound), far, running)
    yield Large(
        "the same, 16 provers, K 16",
        case(one_page, [reg(bound // PROVERS * n + 5, 5, 2**31 + 2**25 * n) for n in range(1, PROVERS)] + [{}], bound),
        ["--posters", "16", *far], running)  # fmt: skip
    yield Large(
        "largest input", case(image_of(ADDS_UP), [{}, flip(steps // 2, 0x40000004 + len(given) // 4 * 3, 1)], steps, given), far, summed)
    yield Large(
        "largest input, 16 provers, K 16",
        case(image_of(ADDS_UP), [flip(steps // 2, 0x40000004 + len(given) // 4 * 3 + n, 1) for n in range(15)] + [{}], steps, given),
        ["--posters", "16", *far], summed)  # fmt: skip
    output = 1000
    byte = "2a"
    shown = byte * (bound - 2 - (bound - 2) // (output + 1))
    yield Large("largest output", case(image_of(puts_out(output)), [{}, reg(bound // 2, 10, 7)], bound), far, f"{running} {shown}")
    yield Large("largest output, 16 provers that agree, K 16",
        case(image_of(puts_out(output)), [{}] * PROVERS, bound // 8), ["--posters", "16", *far],
        f"{running} {byte * (bound // 8 - 2 - (bound // 8 - 2) // (output + 1))}")  # fmt: skip
    image = (bytes.fromhex("00000000") + bytes(1 + k * k % 251 for k in range(MAX_IMAGE // part - 4))).hex()
    yield Large("largest image", case(image, [flip(0, 0x10000 + MAX_IMAGE // part - 1, 1), {}], MAX_BOUND), [], "accept trapped 2 output")
    yield Large(f"stores to {pages} pages", case(image_of(stores_pages(pages)), [{}, reg(bound // 2, 7, 3)], bound), far, running)
    liars_of_one_page = [reg(bound // PROVERS * n + 5, 5, 2**31 + 2**25 * n) for n in range(1, PROVERS)] + [{}]
    tasks = {"tasks": [case(one_page, liars_of_one_page, bound // 16) for _ in range(MOST_TASKS)]}
    yield Large("8 tasks of 16 provers, K 16", tasks, ["--posters", "16", *far], running)
    passing = 100
    silent_ones = [silent(0)] * PROVERS
    yield Large(f"16 silent provers, patience {passing}", case(PUTS_OUT_42, silent_ones, 8, patience=passing), [], "none left")
    yield Large("the same, K 16", case(PUTS_OUT_42, silent_ones, 8, patience=passing), ["--posters", "16"], "none left")
    liars = [{**reg(2, 10, 43 + n), **late(passing)} for n in range(15)] + [late(passing)]
    yield Large(f"16 provers that pass {passing} times on each question, K 16", case(PUTS_OUT_42, liars, MAX_BOUND, patience=passing),
        ["--posters", "16"], "accept exited 0 output 2a")  # fmt: skip
    mute = [{**reg(2, 10, 43 + n), **silent(24)} for n in range(15)] + [{}]
    yield Large("15 liars that fall silent in the last round, patience 100", case(PUTS_OUT_42, mute, MAX_BOUND, patience=100),
        [], "accept exited 0 output 2a")  # fmt: skip


def large(program, part):
    failed = 0
    measuring.adopt_orphans()
    with tempfile.TemporaryDirectory() as name:
        source, sink = pathlib.Path(name, "case.json"), pathlib.Path(name, "report")
        for match in large_matches(part):
            source.write_text(json.dumps(match.case))
            end = measuring.ended([program, "judge", *match.options], source, sink)
            text = sink.read_text()
            last = text[text[:-1].rfind("\n") + 1:].rstrip("\n")
            figures = f"{end.clock:9.2f} s   {end.processor:9.2f} s of processors   {end.peak / 1e6:8.1f} MB"
            wanted = (10 if match.verdict == "none left" else 0), match.verdict
            wrong = "" if (end.status, last) == wanted else f"   WRONG: status {end.status}, {last[:80]!r}"
            failed += bool(wrong)
            print(f"{match.name:60} {figures}   {text.count(chr(10)):6} lines, {len(text)} bytes{wrong}", flush=True)
    return failed
