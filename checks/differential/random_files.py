"""Random ELF files, near one or two of the rules of docs/MACHINE.md or near none: broken by a little, or just kept.

A file has a load with a program that puts out the windows and exits, and up to three more loads. So what is put out
shows what lies there, as far as the other loads and the input have left the program alone.
"""
import struct

import words

WINDOWS = [0x00020000, 0x00030000, 0x40000000, 0xFFFFFFC0]
WINDOW_BYTES = 64
BOUND = 1500
ADDRESSES = 1 << 32
# Before the program, so that where it lies at 0x40000000 a short input leaves it alone.
PADDING = 16
PROGRAM = words.bytes_of(
    words.set_register(17, 1)
    + [word for window in WINDOWS for word in words.put_out(window, window + WINDOW_BYTES)]
    + words.exit_with(7)
)
# Room for program headers. What isn't used is zeros, and no load.
MOST_HEADERS = 5
# Files at the largest length are slow to send, so few are made.
LARGE_EVERY = 250
MOST_BYTES = 4_194_304


class Header:
    """A program header."""

    def __init__(self, p_type, offset, address, file_size, memory_size):
        self.p_type, self.offset, self.address = p_type, offset, address
        self.file_size, self.memory_size = file_size, memory_size
        self.passed_over = (0, 0, 0)  # p_paddr, p_flags, p_align

    def encoded(self):
        p_paddr, p_flags, p_align = self.passed_over
        sizes = (self.file_size % ADDRESSES, self.memory_size % ADDRESSES)
        place = (self.p_type, self.offset % ADDRESSES, self.address % ADDRESSES)
        return struct.pack("<8I", *place, p_paddr, *sizes, p_flags, p_align)


class File:
    def __init__(self, random):
        self.identification = bytearray(bytes.fromhex("7f454c46010101"))
        self.passed_over = random.randbytes(9)  # e_ident from byte 7 on
        self.e_type, self.e_machine, self.e_phentsize = 2, 243, 32
        self.gap = random.choice([0, 0, 0, 4, 7])  # between the header and the program headers
        self.e_phoff = 52 + self.gap
        self.headers = []
        self.e_phnum = 0
        self.e_entry = 0
        self.tail = b""
        self.length = None  # the file is cut or filled up to it

    def tail_at(self):
        return 52 + self.gap + 32 * MOST_HEADERS

    def natural_length(self):
        return self.tail_at() + len(self.tail)

    def encoded(self, random):
        fields = [self.e_type, self.e_machine, random.getrandbits(32), self.e_entry, self.e_phoff]
        fields += [random.getrandbits(32), random.getrandbits(32), random.getrandbits(16)]
        fields += [self.e_phentsize, self.e_phnum]
        header = self.identification + self.passed_over + struct.pack("<HHIIIIIHHHHHH", *fields, 0, 0, 0)
        table = b"".join(head.encoded() for head in self.headers).ljust(32 * MOST_HEADERS, b"\0")
        file = bytes(header) + bytes(self.gap) + table + self.tail
        return file if self.length is None else file[: self.length].ljust(self.length, b"\0")


def ordinary(random):
    """A file that keeps all rules, unless its loads share addresses, or one of them goes beyond the last."""
    file = File(random)
    place = random.choice([0x00010000, 0x00010000, 0x40000000, 0x80000004, ADDRESSES - PADDING - len(PROGRAM)])
    size = PADDING + len(PROGRAM)
    file.e_entry = place + PADDING
    file.headers = [Header(1, 0, place, size, size)]
    for _ in range(random.randint(0, 3)):
        file_size = random.choice([0, 1, 16, 64, 100])
        address = random.choice(WINDOWS + [0x00020010, 0x00030020, 0x3FFFFFFE, 0x40000003, 0xFFFFFFF0, 0])
        memory_size = file_size + random.choice([0, 0, 0, 4, 100])
        p_type = random.choice([1, 1, 1, 1, 0, 2, 3, 0x70000003])
        file.headers.append(Header(p_type, 0, address, file_size, memory_size))
    for header in file.headers:
        header.passed_over = tuple(random.getrandbits(32) for _ in range(3))
    file.tail = random.randbytes(PADDING) + PROGRAM + random.randbytes(100)
    for header in file.headers:
        header.offset = file.tail_at()
        if header is not file.headers[0]:
            header.offset += random.randint(0, len(PROGRAM))
    random.shuffle(file.headers)
    file.e_phnum = len(file.headers)
    return file


# For each rule, a change that leads to its border. `one` is one of the program headers.


def near_rule_1(random, file, one):
    file.length = random.choice([0, 7, 51, 51, 52])
    if random.random() < 0.5:
        file.e_phnum = 0


def near_rule_2(random, file, one):
    file.identification[random.randrange(7)] ^= 1 << random.randrange(8)


def near_rule_3(random, file, one):
    file.e_type = random.choice([0, 1, 3, 4, 0x0102, 0x0200, 0xFFFF])


def near_rule_4(random, file, one):
    file.e_machine = random.choice([0, 3, 242, 244, 0x01F3, 0xF300])


def near_rule_5(random, file, one):
    draw = random.randrange(4)
    if draw == 0:
        file.e_phentsize = random.choice([0, 31, 33, 56, 0x2000])
        file.e_phnum = random.choice([0, file.e_phnum])
    elif draw == 1:
        file.e_phnum = random.choice([0, file.e_phnum + 1, 20, 65535])
    else:
        # The program headers end with the file, or one byte behind it, or far from it.
        last = file.natural_length() - 32 * file.e_phnum
        file.e_phoff = random.choice([last, last + 1, ADDRESSES - 32, ADDRESSES - 32 * max(1, file.e_phnum)])


def near_rule_6(random, file, one):
    last = file.natural_length() - one.file_size
    draw = random.randrange(4)
    if draw == 0:
        one.offset = random.choice([last, last + 1])
    elif draw == 1:
        one.file_size = file.natural_length() - one.offset + random.choice([0, 1])
        one.memory_size = max(one.memory_size, one.file_size)
    elif draw == 2:
        one.offset = ADDRESSES - random.choice([1, one.file_size])
    else:
        # Without bytes of the file any offset will do.
        one.file_size, one.offset = 0, random.choice([last + 1, ADDRESSES - 1])


def near_rule_7(random, file, one):
    one.memory_size = max(one.file_size + random.choice([-1, -1, 0]), 0)


def near_rule_8(random, file, one):
    beyond = random.choice([0, 0, 1])
    if random.random() < 0.5:
        one.address = ADDRESSES - one.memory_size + beyond
    else:
        one.memory_size = ADDRESSES - one.address + beyond


def near_rule_9(random, file, one):
    # Another load begins where this one ends, or ends where it begins, or shares one byte, or lies within it.
    size = random.choice([0, 1, 16, 40])
    address = random.choice([
        one.address + one.memory_size, one.address + one.memory_size - 1, one.address - size, one.address - size + 1,
        one.address + 1,
    ])  # fmt: skip
    file.headers.append(Header(1, one.offset, address, random.choice([0, size]), size))
    file.e_phnum = len(file.headers)


def near_rule_10(random, file, one):
    file.e_entry = file.e_entry + random.choice([1, 2, 3, 4])


def near_rule_11(random, file, one):
    file.length = MOST_BYTES + random.choice([0, 1])


NEAR = [
    near_rule_1, near_rule_2, near_rule_3, near_rule_4, near_rule_5, near_rule_6, near_rule_7, near_rule_8, near_rule_9,
    near_rule_10,
]  # fmt: skip


def random_case(random, index):
    file = ordinary(random)
    changes = random.sample(NEAR, random.choice([0, 0, 1, 1, 1, 2]))
    if index % LARGE_EVERY == LARGE_EVERY - 1:
        changes.append(near_rule_11)
    for change in changes:
        change(random, file, random.choice(file.headers))
    given = random.randbytes(random.choice([0, 0, 1, 4, 9, 12]))
    if random.random() < 0.05:
        # The program that runs is the input.
        given, file.e_entry = PROGRAM, 0x40000004
    return {
        "format": "elf",
        "image": file.encoded(random).hex(),
        "input": given.hex(),
        "bound": BOUND,
        "patience": 0,
        "provers": [{}],
    }
