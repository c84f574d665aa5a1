"""Rows of checks/page: a text beside a case, texts of tasks, rulings, what isn't right, and what the page says of itself."""
import base64
import hashlib
import json
import pathlib
import random
import re

from page_rows import run

TOP = pathlib.Path(__file__).resolve().parent.parent
EXAMPLES = TOP / "examples"
LARGEST = (1 << 64) - 1
# What a ruling is called in the vectors.
RULINGS = {"WrongShape": "wrong shape", "NotOpen": "not open"}
BAD_RULINGS = (
    "", "1", "1 00", "one 00 00", "1 0g 00", "1 000 00", "1 00 0", "4294967296 00 00", "-1 00 00", "1 00 00 00 00",
    "{", '{"version": 1}', "[]", "null", "\0",
)
INJECTED = """(() => {
  const element = document.createElement("script");
  element.textContent = "globalThis.injected = 1";
  document.body.append(element);
  return typeof injected;
})()"""


def example(name="liar_is_bisected"):
    return (EXAMPLES / name / "full_text.txt").read_text(), json.loads((EXAMPLES / name / "case.json").read_text())


def changed_cases(case):
    """The case with one thing changed, and what the page has to name. Another image or input is another start root."""
    yield "start root", {**case, "image": case["image"][:-2] + "01"}
    yield "start root", {**case, "input": "00"}
    yield "bound", {**case, "bound": case["bound"] + 1}
    yield "patience", {**case, "patience": 1}
    yield "start root, version", {**case, "version": 2}
    yield "fan", {**case, "fan": 3}
    yield "provers", {**case, "provers": [{}]}


def says(check, name, found, words):
    """A row: these words are shown, and nothing in green."""
    check.row(name, None if words in found["said"] and not found["good"] else f"it says {found['said'][:300]!r}")


def ties(check):
    """A text and another case: what differs is named, and the text isn't shown in green."""
    text, case = example()
    for names, other in changed_cases(case):
        found = check.put(text, "audit", case=json.dumps(other))
        says(check, f"a case with another {names}", found, f"It isn't a text of your case: {names} ")
    staked, bad_image = (json.dumps({**case, **changed}) for changed in ({"stake": 4}, {"format": "elf"}))
    says(check, "another stake", check.put(text, "audit", 3, staked), "case: stake isn't the same")
    found = check.put(text, "audit", "", staked)
    check.row("the case's stake", None if "balance p1 8" in found["lines"] and found["good"] == 1 else f"it shows {found['lines']}")
    said = check.put(text, "audit")["said"].replace("Give your case", "")
    check.row("no case", None if "isn't shown" in said and "your case" not in said else f"it says {said[:300]!r}")
    for name, json_text in (("no JSON", "{"), ("no case", "{}"), ("a number", "1"), ("a bad image", bad_image), ("no text", "\0")):
        says(check, f"beside {name}", check.put(text, "audit", case=json_text), "nothing is compared: fault ")
    found = check.put(text.replace("given 03", "given 04", 1), "audit", case=json.dumps(case))
    is_refused = "of your case" not in found["said"] and not found["good"]
    check.row("a refused text beside its case", None if is_refused else "it is called one of the case")


def ties_of_tasks(check):
    """Tasks beside their cases with a change, and fewer of them."""
    data = (EXAMPLES / "two_tasks/case.json").read_bytes()
    text = run(check.program, ["judge", "--full"], data)[1]
    tasks = json.loads(data)["tasks"]
    for name, others, said in (
        ("another bound of a task", [tasks[0], {**tasks[1], "bound": 9}], "It isn't a text of your case: bound isn't the same"),
        ("one task of two", tasks[:1], "The text is of 2 tasks, and the case of 1 task."),
        ("a bad task", [tasks[0], {**tasks[1], "bound": 0}], "fault task 2 case 6 bound"),
        ("too many tasks", tasks * 5, "fault case 6 tasks"),
    ):
        says(check, name, check.put(text, "audit", case=json.dumps({"tasks": others})), said)
    says(check, "tasks beside one case", check.put(text, "audit", case=json.dumps(tasks[0])), "the case of one match")


def tasks(check):
    """Texts of tasks whose numbers aren't 1, 2 .. are no texts, whatever they hold."""
    text = example()[0]
    for name, numbers in (
        ("a task is missing", "1 3"), ("the first task is missing", "2"), ("a task is doubled", "1 1"), ("tasks are exchanged", "2 1"),
        ("nine tasks", "1 2 3 4 5 6 7 8 9"), ("a task with a zero before it", "1 02"), ("a task 0", "0 1"),
        ("a large task", "1 18446744073709551617"), ("a task without a number", "1 x"),
    ):
        found = check.put("".join(f"task {number}\n{text}" for number in numbers.split()), "audit")
        is_said = "Nothing was audited" in found["said"] and not found["good"] and not found["answers"]
        check.row(name, None if is_said else f"it says {found['said'][:200]!r}")
    found = check.put("".join(f"task {number}\n{text}" for number in range(1, 9)), "audit")
    statuses = [answer["status"] for answer in found["answers"]]
    check.row("eight tasks", None if statuses == [0] * 8 and found["good"] == 8 else f"the statuses are {statuses}")


def texts(check):
    """A report is told by its bytes; a text by eight bits isn't green; large numbers are exact."""
    report = (EXAMPLES / "changed_texts/a_report.txt").read_text()
    for name, content in (("a report", report), ("a report that is held", report + "x" * 300_000)):
        found = check.put(content, "audit")
        check.row(name, None if "It is a report" in found["said"] else f"it says {found['said'][:200]!r}")
    check.browser.evaluate('boxes.text.put(new TextEncoder().encode("\\0"), "Text"), found("text").value = "match provers 2"')
    found = check.put("\0" * 4, "audit")
    check.row("no report behind a box", None if "It is a report" not in found["said"] else "it is called a report")
    text = example()[0]
    cut = text.rstrip("\n")
    check.row("a text that is cut off", None if "with it the text is confirmed" in check.put(cut, "audit")["said"] else "it isn't said")
    lines = text.splitlines(keepends=True)
    at = max(place for place, line in enumerate(lines) if " p2 given 03" in line)
    length = lines[at].index("given ") + 6 + 2 * (1 + 32 + 124 + 9)
    lines[at] = lines[at][:length] + "f" * 16 + lines[at][length + 16 :]
    found = check.put("".join(lines), "audit")
    wanted = f"{LARGEST:,} bytes of output"
    is_exact = found["steps"] and wanted in json.dumps(found["steps"][-1])
    check.row("an output of 2^64 - 1 bytes", None if is_exact else "its length isn't shown exactly")


def mistake_of_vector(found, ruling, vector):
    """What is wrong with what the page shows of a ruling on a vector, or None."""
    if "failed" in found or not found["answers"]:
        return f"no ruling: {found['said'][:200]!r}"
    words = found["answers"][0]["words"].strip()
    wanted = f"leads {vector['leads']}" if ruling is None else ruling
    if words != wanted or bool(found["good"]) != (ruling is None):
        return f"it is ruled {words!r}, and by the vector {wanted!r}"
    if "is another ruling" in found["said"]:
        return "the page works out another ruling"
    if not found["table"]["rows"] or (found["table"]["rows"][-1][-1] == "holds") != (ruling is None):
        return "the conditions say otherwise"
    if ruling is not None or not re.match("[a-z]+ ?[x-]?", vector.get("text", "")):
        return None
    shown = dict(fact[:2] for fact in found["sections"][0]["facts"])["instruction"]
    return None if "none: " in shown or shown in vector["text"] else f"the instruction is shown as {shown!r}"


def rulings(check):
    for path in "steps.json", "refusals.json":
        for vector in json.loads((EXAMPLES / "vectors" / path).read_text()):
            found = check.put(f"{vector['version']} {vector['root']}\n{vector['proof']}", "ruling")
            problem = mistake_of_vector(found, RULINGS.get(vector.get("refusal")), vector)
            check.row(f"{path}, {vector['name']}, version {vector['version']}", problem)
    for vector in json.loads((EXAMPLES / "vectors/wire_forms.json").read_text()):
        found = check.put(f"1 {'00' * 32} {vector['answer']}", "ruling") if vector["answer"] else {"said": "by rule 1:"}
        is_said = f"by rule {vector['fault']}:" in found["said"]
        check.row(f"wire_forms.json, {vector['name']}", None if is_said == (vector["fault"] != 0) else f"it says {found['said'][:200]!r}")
    line = (EXAMPLES / "vectors/steps.json").read_text().splitlines()[1]
    with_0x = re.sub(r'.*"root": "(\w+)", "proof": "(\w+)".*', r"1 0x\1 0X\2", line)
    for name, words in (("a line of JSON", line), ("digits with 0x", with_0x)):
        found = check.put(words, "ruling")
        check.row(name, None if found["good"] == 1 else f"it says {found['said'][:200]!r}")
    for words in BAD_RULINGS:
        found = check.put(words, "ruling")
        is_said = not found["good"] and len(found["said"]) > 40 and ("Paste a version" in found["said"] or "wrong length" in found["said"])
        check.row(f"no ruling by {words[:20]!r}", None if is_said else f"it says {found['said'][:200]!r}")
    found = check.put(f"1 {'00' * 32} {'00' * 4_000_000}", "ruling")
    is_none = found["answers"] and found["answers"][0]["words"] == "no proof\n"
    check.row("a proof of 4,000,000 bytes", None if is_none else f"it says {found['said'][:200]!r}")


def hostile(chance):
    text, case = example()
    whole = json.dumps(case)
    yield from ("", " ", "\n", "\0", "{}", "[]", "null", "[" * 200, '{"tasks": []}', '{"tasks": 1}', '{"tasks": [1]}', '"\\ud800"')
    yield from ("\ufeff" + whole, whole[:-1], text.replace("bound 8", f"bound {'9' * 5000}"), text.replace("\n", "\r\n"))
    yield from (text[:-200], text[200:])
    yield from ("task 1", "task 1\n", "task 1\ntask 2\n", "task ")
    yield json.dumps({**case, "provers": [{"manner": {"kind": "none"}}]})
    for _ in range(20):
        yield bytes(chance.randrange(256) for _ in range(chance.randrange(1, 400))).decode("latin1")
        at = chance.randrange(len(text))
        yield text[:at] + chance.choice("0 \nfz\0") + text[at + 1 :]


def any_bytes(check):
    """Whatever stands in whichever box, a sentence is shown, and what is confirmed or leads is so by the program."""
    chance, (text, case) = random.Random(1), example()
    for number, content in enumerate(hostile(chance)):
        for kind in "audit", "case", "ruling", "play":
            found = check.put(content, kind)
            is_shown = found["said"] or check.browser.evaluate('!found("play").hidden')
            problem = found.get("failed") or (None if is_shown else "nothing is said")
            if kind == "audit" and bool(found["good"]) != is_confirmed(check, content):
                problem = "it isn't shown as the program audits it"
            check.row(f"bytes {number}, {kind}", problem)
        found = check.put(text, "audit", case=content)
        is_tied = "It is a text of your case" in found["said"]
        problem = found.get("failed") or ("it is said to be of this case" if is_tied else None)
        check.row(f"bytes {number}, beside a text", problem)


def is_confirmed(check, content):
    """Whether the program confirms a text that isn't of tasks."""
    return not content.startswith("task ") and run(check.program, ["audit"], content.encode())[0] == 0


def of_itself(check, page):
    """The page's footer names its modules, and its policy allows no other script."""
    written, browser = page.read_text(), check.browser
    for name in "step", "answers":
        module = base64.b64decode(re.search(f'id="{name}-module">([^<]*)<', written)[1])
        own = hashlib.sha256(module).hexdigest()
        beside = page.with_name(f"{name}.wasm.json")
        said = json.loads(beside.read_text()) if beside.exists() else {"sha256": own}
        missing = [words for words in said.values() if words not in written.partition("<footer>")[2]]
        check.row(f"the footer, {name}", f"it lacks {missing[0]}" if missing or said["sha256"] != own else None)
    is_recorded = page.with_name("answers.wasm.json").exists() and page.with_name("step.wasm.json").exists()
    is_called_proved = "whether it was made of proved code" not in written
    check.row("where the modules come from", None if is_recorded == is_called_proved else "it is claimed without a record, or not with one")
    policy = re.search('http-equiv="Content-Security-Policy" content="([^"]*)"', written)[1]
    check.row("the policy", f"it is {policy}" if "unsafe-inline" in policy or policy.count("'sha256-") != 2 else None)
    check.row("a script that stands in no policy", None if browser.evaluate(INJECTED) == "undefined" else "it ran")
    is_styled = browser.evaluate("getComputedStyle(document.body).maxWidth") == "1216px"
    check.row("the style", None if is_styled else "it isn't that of page.css")
    trusted = "tasks.js", "work.js", "page.js", "coshalit.js", "heap.c"
    readme = (TOP / "web/README.md").read_text().partition("## What is proved")[2]
    missing = [name for name in trusted if f"`{name}`" not in readme]
    check.row("what is trusted", f"web/README.md doesn't name {missing}" if missing else None)


def check(rows, page):
    ties(rows)
    ties_of_tasks(rows)
    tasks(rows)
    texts(rows)
    rulings(rows)
    any_bytes(rows)
    of_itself(rows, page)
