"""The programs and cases by which `run` beside this file tells how many digests a second the program makes."""
import hashlib
import json
import struct

from measuring import Figure, Wrong, image_of
from coshalit import images, machine  # noqa: E402
from coshalit.commitments import root_of  # noqa: E402

ROOTS_BOUND = 4_096
# The root of a state that is kept takes a digest each of the registers, the control and the state.
ROOT_DIGESTS = 3
# A page takes one for each chunk, one for each node above, within the page and then up to the root.
PAGE_DIGESTS = 255
UPPER_LEVELS = 20
EMPTY_NODES = 28
# A changed chunk's leaf, and the nodes above it in its page.
CHUNK_DIGESTS = 8

OUTPUT_BYTES = 1_000_000
C_TIMES = 1_000_000
# A link of an output's chain, and a node of the tree.
C_LENGTHS = [34, 65]

# Flat images, as in `run`.
PUTTING = """
          lui  x6, 0xf4
          addi x6, x6, 576     # 1,000,000
          addi x17, x0, 1
          addi x10, x0, 42
    loop: ecall                # puts out 2a
          addi x6, x6, -1
          bne  x6, x0, loop
          addi x10, x0, 0
          addi x17, x0, 93
          ecall
"""
PUTTING_STEPS = 4 + 3 * OUTPUT_BYTES + 3

JUMP_TO_ITSELF = image_of("jal x0, 0")


def storing(distance, pages, rounds):
    """Stores a word that isn't 0 to so many pages in turn, this many pages apart, and goes round so often."""
    return f"""
        lui  x6, {distance}
        addi x9, x0, {rounds}
    round: lui  x28, 0x20      # the page at 0x00020000
        addi x7, x0, {pages}
    page: sw   x7, 0(x28)
        add  x28, x28, x6
        addi x7, x7, -1
        bne  x7, x0, page
        addi x9, x9, -1
        bne  x9, x0, round
        addi x17, x0, 93
        ecall
    """


# A thousand stores each: how many pages they go to, and the program.
STORES = 1_000
STORING = [(1, storing(0, 1_000, 1)), (100, storing(1, 100, 10)), (1_000, storing(1, 1_000, 1))]


def used_bytes(count):
    """Bytes of which none is 0."""
    return bytes(1 + k * k % 251 for k in range(count))


def elf_image(loads, pages):
    """A file whose loads are all of the same bytes, a load after the other, so that a small file fills many pages."""
    size = 4096 * pages
    start = 52 + 32 * loads  # behind the headers
    image = b"\x7fELF\x01\x01\x01" + bytes(9)
    image += struct.pack("<HHIIIIIHHHHHH", 2, 243, 1, 0x1_0000 + start, 52, 0, 0, 52, 32, loads, 40, 0, 0)
    for k in range(loads):
        image += struct.pack("<IIIIIIII", 1, 0, 0x1_0000 + size * k, 0, size, size, 5, 0)
    return image + JUMP_TO_ITSELF + used_bytes(size - start - 4)


# Images that fill a hundred pages, and as many as the largest flat one, and ten thousand.
LOADED = [
    ("flat", JUMP_TO_ITSELF + used_bytes(409_596)),
    ("flat", JUMP_TO_ITSELF + used_bytes(4_194_300)),
    ("elf", elf_image(10, 1_000)),
]


def tree_digests(pages):
    """How many nodes such pages have, and there are above them up to the root: each is digested once."""
    above = {(level, page >> level) for page in pages for level in range(1, UPPER_LEVELS + 1)}
    return PAGE_DIGESTS * len(pages) + len(above)


def start_of(form, image):
    """The machine that an image starts in, by the second implementation."""
    memory, entry = images.load_image(form, image)
    return machine.start(memory, entry, b"")


def pages_of(form, image):
    """The pages that hold a byte other than 0 at the start."""
    return [page for page, content in start_of(form, image).memory.pages.items() if any(content)]


def last_line(form, image, bound):
    """The last line of roots, computed a second time by tools/coshalit."""
    state = start_of(form, image)
    for _ in range(bound):
        machine.step(state)
    return f"{bound} {root_of(state).hex()}\n".encode()


class Cases:
    """Commands over cases of one image, as `Figure` takes them."""

    def __init__(self, program, folder, form, image):
        self.program, self.folder, self.form, self.image = program, folder, form, image

    def command(self, name, bound, answer):
        source = self.folder / f"{name}_{bound}.json"
        case = {"format": self.form, "image": self.image.hex(), "input": "", "bound": bound, "patience": 0, "provers": [{}]}
        source.write_text(json.dumps(case))
        return [self.program, name], source, self.folder / "answer", answer

    def run(self, bound, line):
        return self.command("run", bound, (1, line))

    def roots(self, bound):
        return self.command("roots", bound, (bound + 1, last_line(self.form, self.image, bound)))


def c_line(length, digests, folder):
    """Digests a second in C, of strings of one length."""
    source = folder / "nothing"
    source.write_bytes(b"")

    def run(times):
        string = bytes(length)
        for _ in range(times):
            string = hashlib.sha256(string).digest() + string[32:]
        return [digests, str(length), str(times)], source, folder / "answer", (1, string[:32].hex().encode() + b"\n")

    return Figure(C_TIMES - 1, run(1), run(C_TIMES)).speed("digests")


def output_line(program, folder):
    """Digests a second of a run that puts out many bytes, each of which is a link of the output's chain."""
    cases = Cases(program, folder, "flat", image_of(PUTTING))
    end = b"answer exited 0 output " + b"2a" * OUTPUT_BYTES + b"\n"
    figure = Figure(OUTPUT_BYTES, cases.run(1, b"answer running output\n"), cases.run(PUTTING_STEPS, end))
    return f"{figure.speed('digests')} {figure.peak / 1e6:6.1f} MB"


def roots_line(program, folder, text):
    """Digests a second of roots at its largest bound, over a program that stores a thousand times."""
    cases = Cases(program, folder, "flat", image_of(text))
    count = (CHUNK_DIGESTS + UPPER_LEVELS) * STORES + ROOT_DIGESTS * (ROOTS_BOUND - 1)
    figure = Figure(count, cases.roots(1), cases.roots(ROOTS_BOUND))
    return f"{figure.speed('digests')} {figure.peak / 1e6:6.1f} MB   {count:,} digests, {figure.longest:.2f} s in all"


def build_line(program, folder, form, image):
    """Digests and pages a second of the building of a tree: roots with bound 1 beside run with the same."""
    cases, pages = Cases(program, folder, form, image), pages_of(form, image)
    count = EMPTY_NODES + tree_digests(pages)
    figure = Figure(count + 2 * ROOT_DIGESTS, cases.run(1, b"answer running output\n"), cases.roots(1))
    beside = "" if figure.took <= 0 else f" {len(pages) / figure.took:7.0f} pages a second"
    return f"{figure.speed('digests')}{beside}   {count:,} digests; {figure.peak / 1e6:.1f} MB"


def digest_lines(program, compiled, folder):
    """The lines about digests a second."""
    digests, reason = compiled
    works = [("a million bytes out", output_line, (program, folder))]
    for pages, text in STORING:
        works.append((f"roots, pages: {pages}", roots_line, (program, folder, text)))
    for form, image in LOADED:
        works.append((f"build, pages: {len(pages_of(form, image))}", build_line, (program, folder, form, image)))
    for length in C_LENGTHS if digests else ():
        works.append((f"in C, {length} bytes", c_line, (length, digests, folder)))
    for name, line, arguments in works:
        try:
            yield f"{name:20} {line(*arguments)}"
        except Wrong as error:
            yield f"{name:20} WRONG: {error}"
    if digests is None:
        yield f"{'in C':20} none ({reason})"
