"""Rows of checks/page: modules whose memory may not grow to what they need. The page says that memory ran out, and gives no answer."""
import base64
import json
import pathlib
import re

from page_rows import run

TOP = pathlib.Path(__file__).resolve().parent.parent
MEMORY_SECTION, HAS_MOST, HAS_64_BITS = 5, 1, 4
# So many pages more than the module begins with, from none to all that these texts need.
MORE_PAGES = 0, 64, 70, 130, 140, 200, 260, 400
SAYS_SO = re.compile("[Oo]ut of memory")
DENIALS = re.compile("It is neither confirmed nor refused|Nothing is confirmed or refused by this")
ANSWERS = re.compile("confirmed|refused|refuted|leads|no proof")


def number_in(module, at):
    """The number in LEB128 at a place, and the place behind it."""
    value = shift = 0
    while True:
        byte = module[at]
        at, value, shift = at + 1, value | (byte & 127) << shift, shift + 7
        if byte < 128:
            return value, at


def written(number):
    """A number in LEB128."""
    out = bytearray()
    while True:
        number, low = number >> 7, number & 127
        out.append(low | (128 if number else 0))
        if not number:
            return bytes(out)


def limited(module, more):
    """The module with a memory that may grow by so many pages."""
    at = 8
    while module[at] != MEMORY_SECTION:
        size, start = number_in(module, at + 1)
        at = start + size
    size, start = number_in(module, at + 1)
    count, flags = module[start : start + 2]
    least, end = number_in(module, start + 2)
    if (count, flags, end) != (1, HAS_64_BITS, start + size):
        raise ValueError("the module has another memory")
    content = bytes([1, HAS_64_BITS | HAS_MOST]) + written(least) + written(least + more)
    return module[:at] + bytes([MEMORY_SECTION]) + written(len(content)) + content + module[start + size :]


def with_little(page, folder, more):
    """A copy of the page whose modules have little memory. Its policy names its scripts, which are the same."""
    def less(found):
        return found[1] + base64.b64encode(limited(base64.b64decode(found[2]), more)).decode() + "<"

    path = pathlib.Path(folder) / f"little_{more}.html"
    path.write_text(re.sub('(id="(?:step|answers)-module">)([^<]*)<', less, page.read_text()))
    return path


def mistake(found, wanted):
    """What is wrong with what is shown, and whether memory ran out. It is the program's answer, or nothing is confirmed or refused."""
    if "failed" not in found and [(answer["status"], answer["words"]) for answer in found["answers"]] == wanted:
        return None, False
    said = DENIALS.sub("", found["said"])
    if SAYS_SO.search(found["said"]) and not found["good"] and not ANSWERS.search(said):
        return None, True
    return f"it says {found['said'][:200]!r}", False


def check(rows, page, folder):
    text = (TOP / "examples/liar_is_bisected/full_text.txt").read_text()
    case = (TOP / "examples/liar_is_bisected/case.json").read_text()
    vector = json.loads((TOP / "examples/vectors/steps.json").read_text())[0]
    audit = [run(rows.program, ["audit"], text.encode())]
    commands = [run(rows.program, [command], case.encode()) for command in ("run", "list")]
    refused = answered = 0
    asked = (
        ("a text", text, "audit", "", audit),
        ("a text and its case", text, "audit", case, audit),
        ("a case", case, "case", "", commands),
        ("a step", f"1 {vector['root']} {vector['proof']}", "ruling", "", [(0, f"leads {vector['leads']}\n")]),
        ("a long proof", f"1 {'00' * 32} {'00' * 6_000_000}", "ruling", "", [(3, "no proof\n")]),
        ("a match", case, "play", "", []),
    )
    for more in MORE_PAGES:
        rows.browser.open(with_little(page, folder, more))
        for name, content, kind, beside, wanted in asked:
            found = rows.put(content, kind, "", beside)
            problem, ran_out = mistake(found, wanted if kind != "play" or found.get("picture") else None)
            rows.row(f"{name} with {more} pages more", problem)
            refused, answered = refused + ran_out, answered + (not ran_out and not problem)
    rows.row("with little memory", None if refused and answered else f"{refused} answers were refused, and {answered} given")
