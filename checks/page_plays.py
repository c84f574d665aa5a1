"""Rows of checks/page: matches that are played, compared with those that the program plays with prover 1's answers on a tape."""
import json
import pathlib

from page_rows import run

TOP = pathlib.Path(__file__).resolve().parent.parent
STILL_OPEN = 13
STATE = """(() => {
  const { play, match } = shown;
  const texts = [...found("choice").options].map((option) => option.text);
  const { posts, status, accepted, isOver, question } = play, report = match.report.map(({ words }) => words);
  const [said, state, title] = ["answers", "play-state", "details-title"].map(textOf), { picture } = match;
  const isOpen = !found("details").hidden, good = document.querySelectorAll("#answers .good.answer").length;
  return { posts, status, accepted, isOver, question, choices: texts, said, state, report, isOpen, title, picture, good };
})()"""


def shown(browser):
    browser.until("shown !== null && isReady && !isAtWork()", "the match doesn't go on")
    state = browser.evaluate(STATE)
    state["text"] = browser.evaluate("shown.play.text ? shown.play.text.text() : null")
    return state


def go_on(browser, *commands):
    """Does something in the match that is played, and waits for what is shown."""
    browser.evaluate(f"{'; '.join(commands[:-1]) or '0'}; shown = null; {commands[-1]}")
    return shown(browser)


def answer(browser, choice=None, digits=None):
    """Answers by a choice, by its number, or by digits."""
    commands = []
    if choice is not None:
        commands.append(f'found("choice").selectedIndex = {choice}, showChoice()')
    if digits is not None:
        commands.append(f'found("digits").value = {json.dumps(digits)}')
    return go_on(browser, *commands, 'found("turn").requestSubmit()')


def to_end(browser):
    return go_on(browser, 'found("to-end").click()')


def begun(check, case, **choices):
    found = check.put(case, "play", **choices)
    if found.get("failed"):
        raise RuntimeError(found["failed"])
    return shown(check.browser)


def by_tape(case, posts, is_silent=False, **choices):
    """The case of the match that was played: prover 1 has its answers on a tape, prover 2 is honest or silent."""
    own = [post for post in posts if post["prover"] == 1 and post["digits"]]
    tape = [{"dispute": post["dispute"], "round": post["round"], "answer": post["digits"]} for post in own]
    provers = [{"manner": {"kind": "tape", "answers": tape}}, {"manner": {"kind": "silent", "from": 0}} if is_silent else {}]
    return json.dumps({**json.loads(case), **choices, "provers": provers}).encode()


def mistake_of_end(check, case, state, is_silent=False, **choices):
    """What is wrong with a match that was played to its end, or None."""
    if not state["isOver"]:
        return "it isn't over"
    data = by_tape(case, state["posts"], is_silent, **choices)
    status, text = run(check.program, ["judge", "--full"], data)
    if (state["status"], state["text"]) != (status, text):
        return f"the full text isn't that of judge --full: status {state['status']} and not {status}"
    if run(check.program, ["audit"], text.encode())[0] != 0:
        return "its text isn't confirmed"
    report = run(check.program, ["judge"], data)[1].splitlines()
    if [line for line in report if not line.startswith(("balance", "pool"))] != state["report"] and all(len(line) < 80 for line in report):
        return "its report is another one"
    truth = run(check.program, ["run"], data)[1].replace("answer ", "accept ")
    is_true = text.endswith(truth)
    if bool(state["good"]) != is_true or ("is what the library's own run" in state["said"]) != is_true:
        return "it isn't said whether the verdict is true"
    return None


def accepts(state, prover):
    return None if state["accepted"] == prover else f"prover {state['accepted']} is accepted"


def lost(state):
    """What is wrong if prover 2, which is honest, isn't accepted."""
    return accepts(state, 2)


def programs(check):
    """Each program of the list, with a liar to the end."""
    count = check.browser.evaluate("examples.programs.length")
    for at in range(count):
        name, case = check.browser.evaluate(f"[examples.programs[{at}].name, examples.programs[{at}].json]")
        begun(check, case)
        state = to_end(check.browser)
        check.row(f"a match of {name}", mistake_of_end(check, case, state) or lost(state))
    check.row("programs", None if count > 10 else f"{count} programs")


def versions(check, case):
    """In each version a match round by round: the interval shrinks, the step is opened, and the liar loses."""
    for version in 1, 2, 3:
        for fan in 2, 4:
            state, widths = begun(check, case, version=version, fan=fan), []
            while not state["isOver"]:
                question = state["question"]
                if question["dispute"]:
                    widths.append(state["picture"].count("are asked"))
                state = answer(check.browser)
            problem = mistake_of_end(check, case, state, version=version, fan=fan) or lost(state)
            if not problem and (not state["isOpen"] or "step " not in state["title"]):
                problem = "the step isn't opened"
            if not problem and widths != [1] * len(widths):
                problem = "the round that is asked isn't drawn"
            check.row(f"a match by rounds, version {version}, fan {fan}", problem)


def shrinks(check, case):
    """The interval that is asked about in each round lies in that of the round before, by the picture's words."""
    state, intervals = begun(check, case), []
    while not state["isOver"]:
        found = [line for line in state["picture"].split("<text") if "both are asked" in line]
        intervals += [line.partition(">")[2].partition(":")[0] for line in found]
        state = answer(check.browser)
    wanted = ["round 1 [0, 8]", "round 2 [0, 4]", "round 3 [2, 4]", "step 2"]
    check.row("the interval shrinks", None if intervals == wanted else f"it is {intervals}")


def silences(check, case):
    """Whoever falls silent is out, and with a silent honest prover the lie is accepted and called one."""
    for patience in 0, 2:
        patient = json.dumps({**json.loads(case), "patience": patience})
        begun(check, patient)
        check.browser.evaluate('found("silent").checked = true')
        state = to_end(check.browser)
        problem = mistake_of_end(check, patient, state, True)
        is_said = "The accepted claim is false" in state["said"] and "and it is false" in state["state"]
        if not problem and (state["accepted"] != 1 or not is_said):
            problem = f"prover {state['accepted']} is accepted, and it says {state['said'][:200]!r}"
        check.row(f"the honest prover is silent, patience {patience}", problem)
        state = begun(check, patient)
        while not state["isOver"]:
            last = len(state["choices"]) - 1
            state = answer(check.browser, last if state["question"]["round"] == 2 else 0)
        check.row(f"the liar falls silent, patience {patience}", mistake_of_end(check, patient, state) or lost(state))


def choices(check, case):
    """Each claim and each proof that is offered: a false one loses, and the truth is accepted."""
    for version in 1, 2, 3:
        claims = len(begun(check, case, version=version)["choices"])
        for claim in range(claims):
            state = begun(check, case, version=version)
            name = state["choices"][claim]
            state = answer(check.browser, claim)
            state = state if state["isOver"] else to_end(check.browser)
            problem = mistake_of_end(check, case, state, version=version) or accepts(state, 1 if name == "the truth" else 2)
            check.row(f"version {version}, the claim with {name}", problem)
        proofs(check, case, version)


def proofs(check, case, version):
    number, count = 0, 1
    while number < count:
        state = begun(check, case, version=version)
        while state["question"]["kind"] != 3:
            state = answer(check.browser)
        count, name = len(state["choices"]), state["choices"][number]
        state = answer(check.browser, number)
        if name == "that ends too early":
            problem = None if "by rule 1" in state["state"] and state["question"]["kind"] == 3 else f"it says {state['state']!r}"
            state = answer(check.browser, 0)
            problem = problem or mistake_of_end(check, case, state, version=version) or lost(state)
            check.row(f"version {version}, bytes that are no proof", problem)
        else:
            check.row(f"version {version}, a proof: {name}", mistake_of_end(check, case, state, version=version) or lost(state))
        number += 1


def bytes_of_ones_own(check, case):
    """Bytes that are typed: none that are no digits, and a digit of a root that is another."""
    browser = check.browser
    begun(check, case)
    before = shown(browser)["posts"]
    browser.evaluate('found("digits").value = "xyz", found("turn").requestSubmit()')
    said = browser.evaluate('found("play-state").textContent')
    check.row("no digits", None if "pairs of hexadecimal digits" in said and shown(browser)["posts"] == before else f"it says {said!r}")
    state = answer(browser, 0)
    truth = state["choices"].index("the truth")
    digits = browser.evaluate(f"game.choices[{truth}].digits")
    state = answer(browser, truth, digits[:-1] + ("0" if digits[-1] != "0" else "1"))
    is_posted = state["posts"][-2]["digits"] == digits[:-1] + ("0" if digits[-1] != "0" else "1")
    check.row("another digit of a root", None if is_posted and "round 1 at 4 differ" in state["report"] else f"{state['report']}")
    state = answer(browser, 0, "05017b")
    is_said = "by rule 1" in state["state"] and len(state["posts"]) == 4
    check.row("bytes of no wire form", None if is_said else f"it says {state['state']!r}")
    state = answer(browser, 0, "02" + "00" * 32 if state["question"]["kind"] != 2 else "0501" + "00" * 32)
    check.row("an answer of another kind", mistake_of_end(check, case, state) or lost(state))
    for count in 4, 2, 0:
        state = go_on(browser, 'found("back").click()')
        is_back = len(state["posts"]) == count and state["status"] == STILL_OPEN
        check.row(f"taken back to {count} posts", None if is_back else f"there are {len(state['posts'])} posts")
    state = go_on(browser, 'found("from").value = "7"', 'found("from").dispatchEvent(new Event("change"))')
    state = to_end(browser)
    is_there = any(line.startswith("step 6 ") for line in state["report"])
    check.row("another step", mistake_of_end(check, case, state) or (None if is_there else f"{state['report']}"))


def check(rows):
    case = (TOP / "examples/liar_is_bisected/case.json").read_text()
    programs(rows)
    versions(rows, case)
    shrinks(rows, case)
    silences(rows, case)
    choices(rows, case)
    bytes_of_ones_own(rows, case)
    tasks, no_image = (TOP / "examples" / name / "case.json" for name in ("two_tasks", "truncated_elf"))
    for name, json_text in (("no case", "{}"), ("tasks", tasks.read_text()), ("no image", no_image.read_text())):
        said = rows.put(json_text, "play")["said"]
        rows.row(f"a match of {name}", None if "No match of this case can be played: fault " in said else f"it says {said[:200]!r}")
