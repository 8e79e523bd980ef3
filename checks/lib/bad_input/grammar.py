"""Scripts, by the table of their lines alone: how many answers there are, or which line is none."""

import re

ANSWERS = re.compile(rb"((ack|nak|stall|off|data ([0-9a-f]{2})+)\n)*")


def answers_in(text):
    """How many answers a text is. A text that is none stays."""
    return text.count(b"\n") if ANSWERS.fullmatch(text) else text


def is_number(word, least, most):
    """Decimal digits, without leading zeros, within these limits."""
    return bool(re.fullmatch(rb"0|[1-9][0-9]{0,9}", word)) and least <= int(word) <= most


def is_hex(word, least, most):
    """So many bytes, of two digits each."""
    return bool(re.fullmatch(rb"([0-9A-Fa-f]{2})*", word)) and 2 * least <= len(word) <= 2 * most


def moves_power(word, rest):
    """A line of several lives alone."""
    if word == b"cut":
        return rest in ([b"none"], [b"all"]) or 1 <= len(rest) <= 64 and all(is_number(it, 0, 16383) for it in rest)
    return len(rest) == 1 and (word == b"fuse" and is_number(rest[0], 0, 10**9) or word == b"fail" and is_number(rest[0], 1, 10**9))


def answers_to(line, has_lives, size):
    """How many answers a line has, or None where it is no line of such a script."""
    word, *rest = line.split(b" ")
    if not line or line.startswith(b"#"):
        return 0
    if line in (b"in", b"out"):
        return 1
    if word == b"fill" and len(rest) == 2:
        return -(-int(rest[1]) // size) if is_hex(rest[0], 1, 1) and is_number(rest[1], 1, 131072) else None
    if len(rest) == 1 and (word == b"out" and is_hex(rest[0], 1, size) or word == b"setup" and is_hex(rest[0], 8, 8)):
        return 1
    is_silent = word == b"tick" and len(rest) == 1 and is_number(rest[0], 1, 10**6) or has_lives and moves_power(word, rest)
    return 0 if is_silent else None


def read_script(script, has_lives, size):
    """What must come of a script: how many answers, or the number of the first line that is none."""
    answers = 0
    for number, line in enumerate(script.split(b"\n")):
        more = answers_to(line, has_lives, size)
        if more is None:
            return None, number + 1
        answers += more
    return answers, None
