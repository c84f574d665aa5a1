"""JSON texts with what `refcli run` says of each, by docs/PROGRAM.md. They are written by hand, not computed."""
import json

MOST_TEXT, MOST_INPUT, MOST_IMAGE = 16_777_216, 1_048_576, 4_194_304
# 'Puts out 42' of examples/README.md
PUTS_OUT_42 = "1305a0029308100073000000130500009308d00573000000"
ANSWER = "answer exited 0 output 2a"


def text_with(**values):
    """A good case with some values replaced by other JSON texts; None leaves a key out."""
    keys = {"format": '"flat"', "image": f'"{PUTS_OUT_42}"', "input": '""'}
    keys.update({"bound": "8", "patience": "0", "provers": "[{}]"})
    keys.update(values)
    return "{" + ", ".join(f'"{key}": {value}' for key, value in keys.items() if value is not None) + "}"


GOOD = text_with()


def good_and(more):
    """The good case with one more pair of key and value."""
    return GOOD[:-1] + ", " + more + "}"


def digits(count):
    return f'"{"00" * count}"'


def nested(levels):
    """An ignored value, so that the case has so many levels with its own object."""
    return good_and('"note": ' + "[" * (levels - 1) + "]" * (levels - 1))


def output_manner(value):
    return '[{"manner": {"kind": "output", "bytes": %s}}]' % value


# Scripts ('Provers'): the key of a prover, the kind, and for each of the kind's keys the least and the greatest number.
MOST = 2**32 - 1
SCRIPTS = [
    ("tamper", "flip", {"step": (0, MOST), "addr": (0, MOST), "mask": (0, 255)}),
    ("tamper", "reg", {"step": (0, MOST), "reg": (1, 31), "value": (0, MOST)}),
    ("tamper", "early", {"steps": (0, MOST)}),
    ("manner", "late", {"passes": (0, 1000)}),
    ("manner", "silent", {"from": (0, 64)}),
]


def script_text(what, kind, keys):
    """A good case with this script; a value is JSON text, and None leaves its key out."""
    pairs = [f'"kind": "{kind}"', *(f'"{key}": {value}' for key, value in keys.items() if value is not None)]
    return text_with(provers='[{"%s": {%s}}]' % (what, ", ".join(pairs)))


def script_rows():
    for what, kind, ranges in SCRIPTS:
        for place, word in enumerate(("least", "greatest")):
            keys = {key: str(ends[place]) for key, ends in ranges.items()}
            yield f"{kind} with the {word} numbers", script_text(what, kind, keys), ANSWER
            yield f"{kind} with another key", script_text(what, kind, {**keys, "note": "[]"}), ANSWER
        for key, (least, greatest) in ranges.items():
            for value in (None, "null", '"1"', "1.0", "1e0", "-1", "-0", "[]", str(greatest + 1), str(2**64)):
                bad = script_text(what, kind, {**keys, key: value})
                yield f"{kind} with {key} {value}", bad, "fault case 7 1"
            if least > 0:
                yield f"{kind} with {key} {least - 1}", script_text(what, kind, {**keys, key: str(least - 1)}), "fault case 7 1"
        yield f"{kind} under the other key", script_text("manner" if what == "tamper" else "tamper", kind, keys), "fault case 7 1"
        yield f"{kind} in upper case", script_text(what, kind.upper(), keys), "fault case 7 1"
    early, late = '"tamper": {"kind": "early", "steps": 3}', '"manner": {"kind": "late", "passes": 2}'
    yield "a tamper and a manner", text_with(provers="[{%s, %s}]" % (early, late)), ANSWER
    yield "a good tamper and a bad manner", text_with(provers='[{}, {%s, "manner": 1}]' % early), "fault case 7 2"
    yield "a bad tamper and a good manner", text_with(provers='[{}, {}, {"tamper": 1, %s}]' % late), "fault case 7 3"
    yield "a bad tamper, then none", text_with(provers='[{"tamper": 1, %s}]' % early), ANSWER
    yield "the first of two bad provers", text_with(provers='[{}, {"tamper": {}}, 5]'), "fault case 7 2"


# What it is, the text or bytes, the answer
ROWS = [
    # Taken
    ("the good case", GOOD, ANSWER),
    ("white space around it", f" \r\n\t{GOOD}\n", ANSWER),
    ("as long as may be", GOOD.ljust(MOST_TEXT), ANSWER),
    ("another key", good_and('"note": [1, {"a": null}, "\\u00e9", 1e300]'), ANSWER),
    ("a key twice, the last counts", text_with(bound="0")[:-1] + ', "bound": 8}', ANSWER),
    ("a key with an escape", GOOD.replace('"bound"', '"b\\u006fund"'), ANSWER),
    ("digits in upper case", text_with(image=f'"{PUTS_OUT_42.upper()}"'), ANSWER),
    ("127 levels", nested(127), ANSWER),
    ("an empty image", text_with(image='""'), "answer trapped 2 output"),
    ("the largest flat image", text_with(image=digits(MOST_IMAGE)), "answer trapped 2 output"),
    ("the largest input", text_with(input=digits(MOST_INPUT)), ANSWER),
    ("the least bound", text_with(bound="1"), "answer running output"),
    ("the greatest bound", text_with(bound="4294967295"), ANSWER),
    ("the greatest patience", text_with(patience="100"), ANSWER),
    ("sixteen provers", text_with(provers=json.dumps([{}] * 16)), ANSWER),
    ("a false claim", text_with(provers=output_manner('"2B"')), ANSWER),
    ("a prover with another key", text_with(provers='[{"note": 1}]'), ANSWER),
    # Too long
    ("a byte too long", GOOD.ljust(MOST_TEXT + 1), "fault too long"),
    ("too long, and no JSON", "x" * (MOST_TEXT + 1), "fault too long"),
    # No JSON, or no object
    ("no bytes", "", "fault case 1"),
    ("white space alone", " \n", "fault case 1"),
    ("cut", GOOD[:-1], "fault case 1"),
    ("two texts", GOOD + GOOD, "fault case 1"),
    ("a comma before the end", GOOD[:-1] + ",}", "fault case 1"),
    ("a comment", GOOD + "// no", "fault case 1"),
    ("single quotes", GOOD.replace('"', "'"), "fault case 1"),
    ("a byte order mark", b"\xef\xbb\xbf" + GOOD.encode(), "fault case 1"),
    ("UTF-16", GOOD.encode("utf-16"), "fault case 1"),
    ("Latin-1", good_and('"note": "\xe9"').encode("latin-1"), "fault case 1"),
    ("a lone surrogate", good_and('"note": "\\ud800"'), "fault case 1"),
    ("a line feed in a string", good_and('"note": "a\nb"'), "fault case 1"),
    ("01", good_and('"note": 01'), "fault case 1"),
    ("0x10", good_and('"note": 0x10'), "fault case 1"),
    ("NaN", good_and('"note": NaN'), "fault case 1"),
    ("1e400", good_and('"note": 1e400'), "fault case 1"),
    ("128 levels", nested(128), "fault case 1"),
    ("null", "null", "fault case 2"),
    ("a case in an array", f"[{GOOD}]", "fault case 2"),
    ("a string", '"x"', "fault case 2"),
    # Keys, by their order
    ("no keys", "{}", "fault case 3 format"),
    *[(f"no {key}", text_with(**{key: None}), f"fault case 3 {key}") for key in json.loads(GOOD)],
    ("a key in upper case", GOOD.replace('"format"', '"Format"'), "fault case 3 format"),
    *[(f"format {value}", text_with(format=value), "fault case 4 format") for value in ("1", "null", "[]")],
    *[(f"format {value}", text_with(format=value), "fault case 6 format") for value in ('"ELF"', '"raw"', '""')],
    *[(f"image {value}", text_with(image=value), "fault case 4 image") for value in ("null", "[19, 5]")],
    *[
        (f"image {value}", text_with(image=value), "fault case 5 image")
        for value in ('"0x13"', '"130"', '"13 05"', '"1g"')
    ],
    ("input null", text_with(input="null"), "fault case 4 input"),
    ("input of one digit", text_with(input='"0"'), "fault case 5 input"),
    ("a byte too much input", text_with(input=digits(MOST_INPUT + 1)), "fault case 6 input"),
    *[
        (f"bound {value}", text_with(bound=value), "fault case 4 bound")
        for value in ('"8"', "8.0", "8e0", "-1", "-0", "null", "true", str(2**64))
    ],
    *[(f"bound {value}", text_with(bound=value), "fault case 6 bound") for value in ("0", "4294967296", str(2**64 - 1))],
    ("patience 0.0", text_with(patience="0.0"), "fault case 4 patience"),
    ("patience 101", text_with(patience="101"), "fault case 6 patience"),
    ("provers without an array", text_with(provers="{}"), "fault case 4 provers"),
    ("no prover", text_with(provers="[]"), "fault case 6 provers"),
    ("seventeen provers", text_with(provers=json.dumps([{}] * 17)), "fault case 6 provers"),
    # Provers
    ("prover 2 is a number", text_with(provers="[{}, 5]"), "fault case 7 2"),
    *[
        (f"prover {value}", text_with(provers=f"[{value}]"), "fault case 7 1")
        for value in (
            "null", "[]", '{"tamper": null}', '{"tamper": []}', '{"tamper": {}}', '{"tamper": {"kind": "flop", "step": 1}}',
            '{"tamper": {"kind": 1, "steps": 1}}', '{"manner": null}', '{"manner": {}}', '{"manner": "output"}',
            '{"manner": {"kind": "output"}}', '{"manner": {"kind": "Output", "bytes": "2b"}}',
            '{"manner": {"kind": "none"}}',
        )
    ],
    *script_rows(),
    *[
        (f"claimed {value}", text_with(provers=output_manner(value)), "fault case 7 1")
        for value in ("42", '"2"', '"2g"')
    ],
    # The first fault of several, and images
    ("no image and a bad bound", text_with(image=None, bound="0"), "fault case 3 image"),
    ("a bad bound, prover and image", text_with(format='"elf"', bound="0", provers="[5]"), "fault case 6 bound"),
    ("a bad prover and image", text_with(format='"elf"', provers="[5]"), "fault case 7 1"),
    ("no ELF file", text_with(format='"elf"'), "fault image 1"),
    ("a flat image that is a byte too large", text_with(image=digits(MOST_IMAGE + 1)), "fault image 11"),
]  # fmt: skip


def status_of(answer):
    """The status that comes with an answer ('Statuses')."""
    for start, status in (("answer", 0), ("fault case", 3), ("fault image", 4), ("fault too long", 12)):
        if answer.startswith(start):
            return status
    raise AssertionError(answer)
