"""The cases by which `run` beside this file tells how long a match takes."""
import json

from measuring import Timing, Wrong, image_of

BOUNDS = [2**10, 2**16, 2**20, 2**24]
PROVERS_BOUND = 2**20
PROVERS = 16
LATE_BOUND, PASSES = 2**10, 100
POSTERS, WORKERS = [1, 2, 4, 16], [1, 4]
TASKS, TASKS_BOUND = 8, 2**20
LONG_TASKS, LONG_BOUND = 2, 2**24
TASKS_POSTERS = [1, 4, 16]
BIG_POSTERS = [1, 2, 4, 8]
BIG_LINE = b"big 0 provers 8 disputes 7 rounds 112 accept exited 0 output f504\n"
RUNNING = b"accept running output\n"

# A flat image, as in `run`. It never ends, so that each bound is a run of so many steps.
STORING_ON = """
          lui  x6, 0x20        # the page at 0x00020000
          lui  x7, 0x1
          addi x7, x7, -4      # 0x00000ffc: the offset of a word in a page
    loop: slli x28, x5, 2
          and  x28, x28, x7
          add  x28, x28, x6
          sw   x5, 0(x28)
          addi x5, x5, 1
          jal  x0, loop
"""
COUNT_REGISTER = 5


def liar(step, number):
    """A prover whose count is another one from a step on, and another one than that of every other liar."""
    return {"tamper": {"kind": "reg", "step": step, "reg": COUNT_REGISTER, "value": 2**31 + number * 2**25}}


def case(bound, provers):
    return {"format": "flat", "image": image_of(STORING_ON).hex(), "input": "", "bound": bound, "patience": 0, "provers": provers}


def rounds(bound):
    """Of a power of two; a dispute has so many lines more, and two others: its own and that of the proof."""
    return bound.bit_length() - 1


def written(folder, name, tree):
    source = folder / name
    source.write_text(json.dumps(tree))
    return source


def two_provers(program, folder):
    """A dispute at each bound, beside one plain run."""
    for bound in BOUNDS:
        name = f"dispute, bound 2^{rounds(bound)}"
        source = written(folder, f"dispute_{bound}.json", case(bound, [{}, liar(2 * bound // 3, 1)]))
        lines = 1 + 2 + 1 + rounds(bound) + 2 + 1
        try:
            match = Timing([program, "judge"], source, folder, (lines, RUNNING))
            run = Timing([program, "run"], source, folder, (1, b"answer running output\n"))
            yield f"{name:32} {match}   one run: {run.clock:7.3f} s"
        except Wrong as error:
            yield f"{name:32} WRONG: {error}"


def shared(name, command, source, folder, answer, posters, workers_tried=WORKERS):
    """The same match with other numbers of posters and workers."""
    first = None
    for workers in workers_tried:
        for count in posters:
            line = f"{name}, K {count}, W {workers}"
            try:
                timing = Timing([*command, "--posters", str(count), "--workers", str(workers)], source, folder, answer)
            except Wrong as error:
                yield f"{line:32} WRONG: {error}"
                continue
            first = first or timing.clock
            yield f"{line:32} {timing}   {first / timing.clock:5.2f} times as fast as the first"


def many_provers(program, folder):
    """Sixteen provers of sixteen roots: eight disputes side by side, then four, two and one."""
    bound = PROVERS_BOUND
    provers = [liar(bound // PROVERS * (number - 1) + 9, number) for number in range(1, PROVERS)] + [{}]
    source = written(folder, "provers.json", case(bound, provers))
    lines = 1 + PROVERS + (PROVERS.bit_length() - 1) + (PROVERS - 1) * (rounds(bound) + 2) + 1
    return shared("16 provers, 2^20", [program, "judge"], source, folder, (lines, RUNNING), POSTERS)


def late_provers(program, folder):
    """Sixteen provers that pass a hundred times on each question: some 34,600 passes."""
    bound = LATE_BOUND
    late = {"manner": {"kind": "late", "passes": PASSES}}
    provers = [{**liar(bound // PROVERS * (number - 1) + 9, number), **late} for number in range(1, PROVERS)] + [late]
    source = written(folder, "late.json", {**case(bound, provers), "patience": PASSES})
    lines = 1 + PROVERS + (PROVERS.bit_length() - 1) + (PROVERS - 1) * (rounds(bound) + 2) + 1
    return shared(f"16 provers, late {PASSES}", [program, "judge"], source, folder, (lines, RUNNING), POSTERS, WORKERS[:1])


def tasks_of(count, bound):
    """So many cases of two provers each, and how many lines the report of each has."""
    return [case(bound, [{}, liar(bound // count * number + 9, number)]) for number in range(count)], 1 + 2 + 1 + rounds(bound) + 2 + 1


def many_tasks(program, folder):
    """Tasks of two provers each on one board, beside one of them alone."""
    tasks, lines = tasks_of(TASKS, TASKS_BOUND)
    alone = written(folder, "task.json", tasks[0])
    yield from shared("one task alone", [program, "judge"], alone, folder, (lines, RUNNING), TASKS_POSTERS[:1], WORKERS[:1])
    source = written(folder, "tasks.json", {"tasks": tasks})
    yield from shared(f"{TASKS} tasks", [program, "judge"], source, folder, (TASKS * (1 + lines), RUNNING), TASKS_POSTERS, WORKERS[:1])


def long_tasks(program, folder):
    """Two tasks so long that a poster whose prover has answered waits for the other's many times what a sleep takes."""
    tasks, lines = tasks_of(LONG_TASKS, LONG_BOUND)
    source = written(folder, "long_tasks.json", {"tasks": tasks})
    name = f"{LONG_TASKS} tasks, 2^{rounds(LONG_BOUND)}"
    return shared(name, [program, "judge"], source, folder, (LONG_TASKS * (1 + lines), RUNNING), TASKS_POSTERS, WORKERS[:1])


def large_workload(program, folder):
    source = folder / "nothing"
    source.write_bytes(b"")
    return shared("big 0", [program, "big", "0"], source, folder, (1, BIG_LINE), BIG_POSTERS)


def dispute_lines(program, folder):
    """The lines about matches."""
    for lines in two_provers, many_provers, late_provers, many_tasks, long_tasks, large_workload:
        yield from lines(program, folder)
