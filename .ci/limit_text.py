#!/usr/bin/env python3
"""Writes an input at a limit of the grammar, or one past it.

    limit_text.py NAME COUNT

The texts that are within the limits are well formed, so that plain_model.py says what is due for them.
"""
import sys

TOP = 2**64 - 1


def blocks(count):
    """So many blocks of one command over 64 lanes; what is past 64 times 256 stands in the last lane."""
    yield "cicada 1\ntable a\nrow a 1 5\n"
    for lane in range(64):
        yield "lane\n"
        for block in range(256 if lane < 63 else count - 63 * 256):
            yield "snap\nget a 1\nend\n" if block % 7 == 3 else "txn\nadd a 1 1\nget a 1\nend\n"
    yield "done\n"


def rows(count):
    """So many rows, by falling keys, and no block."""
    yield "cicada 2\ntable a 6\n"
    for key in range(count, 0, -1):
        yield f"row a {key * 1125899906842597 % TOP} {TOP} {key} 0 1 2 {key % 10}\n"
    yield "done\n"


def bytes_(count):
    """A text of so many bytes, of blocks with 64 commands each, but for the last ones."""
    head, last = "cicada 1\ntable " + "a" * 16 + "\nlane\n", "done\n"
    left = count - len(head) - len(last)
    yield head
    while left > 6000:
        yield "txn\n" + ("get " + "a" * 16 + f" {TOP}\n") * 64 + "end\n"
        left -= 8 + 42 * 64
    for part in (left // 3, left // 3, left - left // 3 * 2):
        commands = -(-(part - 8) // 42)
        yield "txn\n"
        for place in range(commands):
            digits = (part - 8) // commands + (place < (part - 8) % commands) - 22
            yield "get " + "a" * 16 + " " + "1" * digits + "\n"
        yield "end\n"
    yield last


def lanes(count):
    yield "cicada 1\ntable a\n" + "lane\ntxn\nget a 1\nend\n" * count + "done\n"


def tables(count):
    yield "cicada 2\n" + "".join(f"table {'abcdefghi'[i]} {i % 6 + 1}\n" for i in range(count)) + "done\n"


def commands(count):
    yield "cicada 1\ntable a\nlane\ntxn\n" + "put a 1 7\n" * (count - 1) + "get a 1\nend\ndone\n"


def scans(count):
    """Two scans whose limits add up to so many."""
    yield "cicada 1\ntable a\nrow a 1 2\nlane\nsnap\n" + f"scan a 0 9 200\nscan a 1 1 {count - 200}\nend\ndone\n"


def changes(count):
    """Rows and commands that bring rows, so many of them together, and other commands."""
    yield "cicada 1\ntable a\n" + "".join(f"row a {key} 1\n" for key in range(9000)) + "lane\n"
    left = count - 9000
    while left > 0:
        some = min(left, 60)
        yield "txn\n" + "".join(f"put a {key} 2\n" for key in range(some)) + "add a 1 1\ndel a 2\nend\n"
        left -= some
    yield "done\n"


def finds(count):
    """At most so many bytes: 8,000 rows with an index, and blocks in which each second command is a search by it."""
    yield "cicada 2\ntable a 2\nindex a 2\n" + "".join(f"row a {key} {key % 7} {key * 7919 % 10007}\n" for key in range(8000)) + "lane\n"
    left = count - 5 - len("cicada 2\ntable a 2\nindex a 2\nlane\n") - sum(len(f"row a {key} {key % 7} {key * 7919 % 10007}\n") for key in range(8000))
    for block in range(16384):
        text = "txn\n" + f"add a {block * 31 % 8000} 2 {block % 5}\n"
        for place in range(31):
            low = (block * 97 + place * 331) % 10007
            text += f"find a 2 {low} {low + 20} 8\nget a {low % 8000} 2\n"
        text += "end\n"
        left -= len(text)
        if left < 0:
            break
        yield text
    yield "done\n"


texts = {"blocks": blocks, "rows": rows, "bytes": bytes_, "lanes": lanes, "tables": tables, "commands": commands, "scans": scans, "changes": changes, "finds": finds}
sys.stdout.writelines(texts[sys.argv[1]](int(sys.argv[2])))
