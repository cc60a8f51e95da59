"""Documents once more, in Python and for comparison only.

Format and checks follow docs/DOCUMENTS.md and are no translation of the proved code: where the two print different
lines, one of them strays from that page. What is tried, and how a line is put, is as in the program `document_tests`.
Python 3.10 or later, standard library only. From the root of the repository:

    python3 reference/document.py | diff - crates/document_tests/stdout
    python3 reference/document.py --hostile N OUT    # writes a file of N records that is slow to refuse
"""
import argparse
from itertools import pairwise
from struct import Struct
from typing import NamedTuple

RECORD = Struct('>BBHII')
TRAILER = Struct('>BBHIIIII')
LONGEST_TITLE = 40
MOST_RECORDS = 1_048_576
EITHER = b'TR'


class Record(NamedTuple):
    kind: int
    answer: int
    gap: int
    value: int
    span: int


class Sheet(NamedTuple):
    """What a document says; nothing of it need be right."""
    letter: int
    title: bytes
    records: bytes
    first: int
    second: int
    game: int


class Kind(NamedTuple):
    name: str
    end: int             # a record with nothing beneath it: a leaf, a count
    branch: int          # a record that others stand beneath: a guess, a split
    bare: bool           # whether such a record may have nothing beneath it
    key: str             # the field by which siblings rise
    root_zeros: tuple    # the fields that are zero in the root
    first: range         # the first figure
    second: range        # the second figure


KINDS = {
    ord('T'): Kind('tree', 0, 1, False, 'answer', ('answer',), range(1, 31), range(1, 491_521)),
    ord('R'): Kind('refutation', 2, 3, True, 'value', ('answer', 'value'), range(0, 31), range(0, 1)),
}


class Refused(Exception):
    def __init__(self, number, place=None):
        self.number, self.place = number, place

    def __str__(self):
        stage = 'Record' if self.number == 7 else 'File'
        place = '-' if self.place is None else f'r{self.place}'
        return f'no {self.number} {stage} {place}'


def refuse_if(wrong, number):
    if wrong:
        raise Refused(number)


# Records

def children_of(nodes, place):
    """The places of a record's children in order, or None if they do not use up its span exactly."""
    low = place - nodes[place].span
    if low < 0:
        return None
    children, end = [], place
    while end > low:
        children.append(end - 1)
        end = end - 1 - nodes[end - 1].span
    children.reverse()
    return children if end == low else None


def has_its_fields(kind, node):
    if node.gap != 0:
        return False
    if node.kind == kind.end:
        return node.span == 0
    return node.kind == kind.branch and (kind.bare or node.span > 0)


def is_a_root(kind, node, place):
    return node.span == place and all(getattr(node, field) == 0 for field in kind.root_zeros)


def not_rising(kind, nodes, children):
    """The children that do not rise above the one before them."""
    at = Record._fields.index(kind.key)
    return {later for earlier, later in pairwise(children) if nodes[later][at] <= nodes[earlier][at]}


def faulty_records(kind, records):
    nodes = [Record._make(fields) for fields in RECORD.iter_unpack(records)]
    root = len(nodes) - 1
    faulty = set()
    for place, node in enumerate(nodes):
        children = children_of(nodes, place)
        if children is None or not has_its_fields(kind, node):
            faulty.add(place)
        if place == root and not is_a_root(kind, node, place):
            faulty.add(place)
        if children is not None:
            faulty |= not_rising(kind, nodes, children)
    return faulty


# Reading and writing

def judge(sheet):
    """Checks 2, 3, 4, 6 and 7 of what a document says."""
    refuse_if(sheet.letter not in KINDS, 2)
    count, rest = divmod(len(sheet.records), RECORD.size)
    refuse_if(len(sheet.title) > LONGEST_TITLE or rest != 0 or not 1 <= count <= MOST_RECORDS, 3)
    refuse_if(any(not 32 <= byte <= 126 for byte in sheet.title), 4)
    kind = KINDS[sheet.letter]
    refuse_if(sheet.first not in kind.first or sheet.second not in kind.second, 6)
    faulty = faulty_records(kind, sheet.records)
    if faulty:
        raise Refused(7, min(faulty))


def read(file, letters=EITHER):
    """What a file says, where a call takes these letters."""
    refuse_if(len(file) < RECORD.size + TRAILER.size, 1)
    letter, edition, title, count, first, second, distance, game = TRAILER.unpack(file[-TRAILER.size:])
    refuse_if(letter not in letters or edition != 1, 2)
    size = RECORD.size * count
    refuse_if(distance != size or title + size + TRAILER.size != len(file), 3)
    sheet = Sheet(letter, file[:title], file[title:title + size], first, second, game)
    judge(sheet)
    return sheet


def encode(sheet):
    count = len(sheet.records) // RECORD.size
    return sheet.title + sheet.records + TRAILER.pack(
        sheet.letter, 1, len(sheet.title), count, sheet.first, sheet.second, RECORD.size * count, sheet.game)


def write(sheet, out):
    """Puts a document at the front of a buffer, and answers how many bytes it has."""
    judge(sheet)
    document = encode(sheet)
    refuse_if(len(document) > len(out), 21)
    out[:len(document)] = document
    return len(document)


def title_to_show(house, supplier):
    """Whose title is shown, and from where to where it stands in that one's line."""
    return ('house', 0, len(house)) if house else ('supplier', 0, len(supplier))


# Documents to try

def record(kind, answer, value, span):
    return RECORD.pack(kind, answer, 0, value, span)


def small_tree():
    """One peg and two colours, game 7: ask colour 0, then colour 1."""
    records = record(0, 1, 1, 0) + record(1, 0, 1, 1) + record(0, 1, 0, 0) + record(1, 0, 0, 3)
    return encode(Sheet(ord('T'), b'', records, 2, 3, 7))


def small_refutation():
    """For the same game, that one guess is not enough."""
    return encode(Sheet(ord('R'), b'', record(2, 0, 0, 0), 1, 0, 7))


def chain(count):
    """A leaf, and guesses above it, each over the one before."""
    return record(0, 0, 0, 0) + b''.join(record(1, 0, 0, i) for i in range(1, count))


def row(count):
    """A split that has all the other records as its children."""
    return b''.join(record(2, 0, i, 0) for i in range(1, count)) + record(3, 0, 0, count - 1)


def hostile(count):
    """Counts, a third of all, then pairs of splits: one over everything before it, and one whose span of 1 leads a
    walk past the first. Each later walk so goes over all these seconds and all counts: count * count / 6 steps."""
    pairs = (count - 1) // 3
    counts = count - 1 - 2 * pairs
    records = [record(2, 0, i + 1, 0) for i in range(counts)]
    for i in range(counts, count - 1, 2):
        records += [record(3, 0, i + 1, i), record(3, 0, i + 2, 1)]
    return b''.join(records) + record(3, 0, 0, count - 1)


# What comes of them

def show_read(file):
    try:
        sheet = read(file)
    except Refused as refused:
        return print(refused)
    print(f'{KINDS[sheet.letter].name}, title {len(sheet.title)}, records {len(sheet.records) // RECORD.size}, '
          f'figures {sheet.first} {sheet.second}, game {sheet.game}')


def show_letter(file, letter, name):
    try:
        read(file, letter)
        print(f'as a {name}: taken')
    except Refused as refused:
        print(refused)


def show_again(file, room):
    out = bytearray([255] * room)
    try:
        print(f'room {room}: {write(read(file), out)} bytes')
    except Refused as refused:
        print(f'room {room}: {refused}')
    print(list(out))


def show_broken(file, by):
    for at in range(len(file)):
        print(f'byte {at} plus {by}: ', end='')
        show_read(file[:at] + bytes([(file[at] + by) % 256]) + file[at + 1:])


def show_small(file):
    show_read(file)
    show_letter(file, b'T', 'tree')
    show_letter(file, b'R', 'refutation')
    show_again(file, len(file) - 1)
    show_again(file, len(file) + 2)
    show_broken(file, 1)
    show_broken(file, 128)


def show_title(house, supplier):
    whose, start, end = title_to_show(house, supplier)
    line = {'house': house, 'supplier': supplier}[whose]
    print(f'{whose} {start}..{end} {list(line[start:end])}')


def show_written(letter, title, records, first, second):
    out = bytearray(len(title) + len(records) + TRAILER.size)
    try:
        print(f'{write(Sheet(ord(letter), title, records, first, second, 7), out)} bytes: ', end='')
    except Refused as refused:
        return print(refused)
    show_read(bytes(out))


def show_limits():
    forty, two = b'x' * LONGEST_TITLE, row(2)
    show_written('R', forty, two, 1, 0)
    show_written('R', forty + b'x', two, 1, 0)
    show_written('X', forty, two, 1, 0)
    show_written('R', b'a\tb', two, 1, 0)
    show_written('R', forty, two, 31, 0)
    show_written('T', forty, two, 1, 1)
    show_written('T', b'deep', chain(1_000_000), 30, 491_520)
    for count in (MOST_RECORDS, MOST_RECORDS + 1):
        show_written('R', b'', row(count), 30, 0)
    for count in (MOST_RECORDS, MOST_RECORDS + 1):
        show_read(encode(Sheet(ord('R'), b'', row(count), 1, 0, 7)))


def report():
    show_small(small_tree())
    show_small(small_refutation())
    show_read(b'too short')
    show_title(b'Lid', b'Box')
    show_title(b'', b'Box')
    show_limits()


def write_hostile(count, path):
    with open(path, 'wb') as out:
        out.write(encode(Sheet(ord('R'), b'', hostile(count), 1, 0, 7)))


def main():
    parser = argparse.ArgumentParser(description='Prints what document_tests must print.')
    parser.add_argument('--hostile', nargs=2, metavar=('N', 'OUT'),
                        help=f'write to OUT a refutation of N records, 1 to {MOST_RECORDS}, that is slow to refuse')
    slow = parser.parse_args().hostile
    if slow is None:
        report()
    elif slow[0].isdecimal() and 1 <= int(slow[0]) <= MOST_RECORDS:
        write_hostile(int(slow[0]), slow[1])
    else:
        parser.error(f'N is from 1 to {MOST_RECORDS}')


if __name__ == '__main__':
    main()
