"""Journals as bytes, for measures and for runs with faults: their records, made ones, and ones that are spelled as the first version did.

A journal is a mark, the length of the document and its text, the records, each behind a byte 1 with its length in four bytes, and a closed gate, the
byte 0. A record is the number of its posts in two bytes, and the posts."""
import pathlib
import struct

MARK, OLD_MARK = b"SHIFTJ2\n", b"SHIFTJ1\n"
PLAN, PRICED, SPLIT, SETTLED = 1, 2, 3, 4
PRICE, OLD_PRICE = 5, 8  # bytes of a price
POSTS_MOST = 65535       # of a record
MORNING = pathlib.Path(__file__).resolve().parent.parent / "cases" / "texts" / "morning.canonical.json"


def number(content, at, size):
    """The number in so many bytes, and the place behind it."""
    return int.from_bytes(content[at:at + size], "little"), at + size


def head_of(content):
    """The mark of a journal and its document with the length."""
    size, at = number(content, 8, 4)
    return content[:8], content[8:at + size]


def records(content):
    """The records of a journal that is whole, or was cut behind a record."""
    size, at = number(content, 8, 4)
    at += size
    while content[at] == 1:
        size, first = number(content, at + 1, 4)
        at = first + size
        yield content[first:at]


def record(posts):
    """A record of these posts, with what stands before it."""
    content = struct.pack("<H", len(posts)) + b"".join(posts)
    return framed(content)


def framed(content):
    return b"\1" + struct.pack("<I", len(content)) + content


def with_more(journal, more):
    """A journal with these records before the closed gate that it ends with."""
    return journal[:-1] + more + b"\0"


def split(node):
    """The post that splits a node by the number of a shift's duties. The shift goes by the node's depth, where node k splits into 2k + 1 and 2k + 2."""
    return struct.pack("<BHIHBBH", SPLIT, 0, node, (node + 1).bit_length() - 1, 0, 0, 0)


def splits(count):
    """Records that split so many nodes, from the root on."""
    starts = range(0, count, POSTS_MOST)
    return b"".join(record([split(node) for node in range(first, min(first + POSTS_MOST, count))]) for first in starts)


def priced(price):
    """A record that prices the first node with 24 slots at 0, each price in so many bytes: it may stand in a journal any number of times."""
    return record([bytes([PRICED]) + struct.pack("<HIHI", 0, 0, 1, 24) + bytes(24 * price) + struct.pack("<I", 0)])


def made(is_old, count):
    """A journal of the morning's document with so many such records, of the first version or of the present one."""
    head = MORNING.read_bytes().rstrip(b"\n")
    return (OLD_MARK if is_old else MARK) + struct.pack("<I", len(head)) + head + priced(OLD_PRICE if is_old else PRICE) * count + b"\0"


def behind_breaks(content, at):
    count, at = number(content, at, 1)
    return at + 4 * count


def behind_plan(content, at):
    """The place behind a plan's rows, of which each has five bytes before its breaks."""
    rows, at = number(content, at + 8, 4)
    for _ in range(rows):
        at = behind_breaks(content, at + 5)
    return at


def widened(content, at, signed):
    """Prices behind their number in as many bytes as the first version took, and the place behind them."""
    count, at = number(content, at, 4)
    wide = struct.pack("<I", count)
    for _ in range(count):
        wide += int.from_bytes(content[at:at + PRICE], "little", signed=signed).to_bytes(OLD_PRICE, "little", signed=signed)
        at += PRICE
    return wide, at


def old_post(content, at):
    """A post as the first version spells it, and the place behind it."""
    kind, first = content[at], at
    at += 3
    if kind == PLAN:
        at = behind_plan(content, at)
    elif kind == PRICED:
        slots, behind = widened(content, at + 6, True)
        cuts, last = widened(content, behind, False)
        return content[first:at + 6] + slots + cuts, last
    elif kind == SPLIT:
        at = behind_breaks(content, at + 7) + 2
    else:
        assert kind == SETTLED, kind
        at += 4
    return content[first:at], at


def old_record(content):
    posts, at = number(content, 0, 2)
    parts = [content[:2]]
    for _ in range(posts):
        post, at = old_post(content, at)
        parts.append(post)
    assert at == len(content)
    return b"".join(parts)


def as_old(journal):
    """A journal as the first version spells it."""
    mark, head = head_of(journal)
    assert mark == MARK
    return b"".join([OLD_MARK, head, *(framed(old_record(it)) for it in records(journal)), b"\0"])
