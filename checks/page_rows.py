"""Rows of checks/page: what is put into the page, what it shows of it, and how many have passed."""
import json
import subprocess

from checking import Count

SECONDS = 300
# Puts a text into the page as its reader would, and waits for what is shown.
PUT = """
async (text, kind, stake, json, choices) => {
  const ended = async (condition) => {
    const began = performance.now();
    while (!condition()) {
      if (performance.now() - began > 240000) return false;
      await new Promise((done) => setTimeout(done, 5));
    }
    return true;
  };
  choose(kind);
  boxes.text.put(new TextEncoder().encode(text), "Text");
  boxes.case.put(new TextEncoder().encode(json), "Case");
  for (const [id, value] of Object.entries({ version: "", fan: "", ...choices, stake })) found(id).value = value;
  shown = null;
  found("form").requestSubmit();
  if (!(await ended(() => shown !== null && isReady && !isAtWork()))) return { failed: "no answer" };
  const boxed = [...document.querySelectorAll("#answers pre[data-command]")].map((box) => box.textContent);
  const said = found("answers").textContent, good = document.querySelectorAll("#answers .good.answer").length;
  if (shown.failed) return { failed: shown.failed, answers: [], said, good };
  const answers = shown.answers.map(({ command, status, words, isGood }) => ({ command, status, words, isGood }));
  const steps = shown.match ? shown.match.details.map(({ title, sections }) => ({ title, sections })) : [];
  const lines = [...document.querySelectorAll("#report li")].map((line) => line.textContent);
  const rows = document.querySelectorAll("#picture [data-place]").length;
  const { table = null, sections = [] } = shown.answers[0] ?? {}, picture = shown.match ? shown.match.picture : null;
  return { answers, boxes: boxed, said, good, steps, lines, picture, rows, table, sections };
}
"""


def run(program, arguments, data):
    done = subprocess.run([program, *arguments], input=data, stdout=subprocess.PIPE, timeout=SECONDS)
    return done.returncode, done.stdout.decode()


class Rows:
    """The page, the program, and how many rows have passed and failed."""

    def __init__(self, browser, program):
        self.browser, self.program, self.count = browser, program, Count()
        self.row = self.count.add

    def put(self, text, kind, stake="", case="", **choices):
        """What the page shows of a text; with the stake, the case and the choices that stand beside it."""
        words = ", ".join(map(json.dumps, (text, kind, str(stake), case, choices)))
        return self.browser.evaluate(f"({PUT})({words})")

    def mistake(self, kind, text, commands, stake="", case=""):
        """What is wrong with the answers of the page to a text, and what it has shown."""
        found = self.put(text, kind, stake, case)
        if "failed" in found:
            return found["failed"], found
        wanted = [run(self.program, [command], text.encode()) for command in commands]
        if len(found["answers"]) < len(wanted):
            return f"there are {len(found['answers'])} answers", found
        for command, answer, box, (status, words) in zip(commands, found["answers"], found["boxes"], wanted):
            if (answer["status"], answer["words"]) != (status, words):
                return f"{command}: {answer['words'][:80]!r}, {answer['status']}; the program writes {words[:80]!r}, {status}", found
            if not words.startswith(box) or (box != words and len(box) < 1000):
                return f"{command}: {box[:80]!r} is shown of {words[:80]!r}", found
        return None, found
