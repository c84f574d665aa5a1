"""Instructions, assembly texts, runs and roots, against transcripts and vectors."""
import json
import unittest

from coshalit import assembly, commitments, images, instructions, machine

from . import TOP, commands


def image_of(case):
    """The format and the bytes of a case's image. It raises `assembly.Fault`."""
    return ("flat", assembly.assemble(case["image"])[0]) if case["format"] == "asm" else (case["format"], bytes.fromhex(case["image"]))


def cases_of(command, *statuses):
    """The case and the text of each such command of a transcript that ended with one of these statuses."""
    for folder, words, text, status in commands():
        if words.startswith(f"{command} <") and status in statuses:
            yield json.loads((TOP / "examples" / folder / words.partition("<")[2]).read_bytes()), text


def listed():
    """The words and the texts of the listings in transcripts."""
    for case, text in cases_of("refcli list", 0):
        image = image_of(case)[1]
        padded = image + bytes(-len(image) % 4)
        yield from zip((int.from_bytes(padded[at : at + 4], "little") for at in range(0, len(padded), 4)), text.splitlines())


class Instructions(unittest.TestCase):
    def test_listings_are_those_of_the_program(self):
        found = list(listed())
        self.assertGreater(len(found), 5)
        for word, text in found:
            self.assertEqual(instructions.text_of(word), text)

    def test_words_of_the_documents(self):
        for word, text in (0x006281A3, "sb x6, 3(x5)"), (0x02A00513, "addi x10, x0, 42"), (0x00100893, "addi x17, x0, 1"):
            self.assertEqual(instructions.text_of(word), text)
            self.assertEqual(assembly.assemble(text)[0], word.to_bytes(4, "little"))

    def test_each_row_is_read_back(self):
        for row in instructions.ROWS:
            for rd, rs1, rs2, imm in (1, 2, 3, 4), (31, 30, 29, -2048), (0, 0, 0, 2046):
                if row.syntax == "shift":
                    imm %= 32
                elif row.syntax == "upper":
                    imm %= 1 << 20
                word = instructions.word_of(row.name, rd=rd, rs1=rs1, rs2=rs2, imm=imm)
                self.assertEqual(instructions.decode(word).name, row.name)
                self.assertEqual(assembly.assemble(instructions.text_of(word))[0], word.to_bytes(4, "little"))

    def test_lines_that_are_not_taken(self):
        for line in "addi x1, x1", "addi x32, x0, 0", "addi x1, x0, 2048", "ADD x1, x1, x1", "beq x0, x0, 3", "lw x1, 4", "nop", "x: x:", "jal x0, y":
            with self.assertRaises(assembly.Fault):
                assembly.assemble(line)
        with self.assertRaises(assembly.Fault):
            assembly.assemble("addi x1, x0, " + "9" * 5000)


class Runs(unittest.TestCase):
    def test_answers_are_those_of_the_program(self):
        compared = 0
        for case, text in cases_of("refcli run", 0, 4):
            if case["bound"] > 100_000:
                continue
            try:
                memory, entry = images.load_image(*image_of(case))
                state = machine.start(memory, entry, bytes.fromhex(case["input"]), case.get("version", 1))
                machine.run(state, case["bound"])
                found = f"answer {state.words()} output{' ' + state.output.hex() if state.output else ''}"
            except images.Refused as refused:
                found = f"fault image {refused.rule}"
            except assembly.Fault as fault:
                found = f"{text.rpartition(' ')[0]} {fault}"
            self.assertEqual(found + "\n", text)
            compared += 1
        self.assertGreater(compared, 20)

    def test_roots_are_those_of_the_vectors(self):
        vectors = json.loads((TOP / "examples/vectors/roots.json").read_bytes())
        self.assertGreater(len(vectors), 3)
        for vector in vectors:
            memory, entry = images.load_flat(bytes.fromhex(vector["image"]))
            state, done = machine.start(memory, entry, bytes.fromhex(vector["input"]), vector["version"]), 0
            for step in sorted(map(int, vector["roots"]))[:8]:
                machine.run(state, step - done)
                done = step
                self.assertEqual(commitments.root_of(state, vector["version"]).hex(), vector["roots"][str(step)])
