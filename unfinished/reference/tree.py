"""Trees once more, in Python: an independent reference for the crate `tree`, by the pages in docs/.

It makes the trees that the program `tree_tests` judges, and prints what that program must print. The games are in
reference/games.py, the reading of documents in reference/document.py. From the root of the repository:

    python3 reference/tree.py | diff - crates/tree_tests/stdout
    python3 reference/tree.py --make                    # writes crates/tree_tests/data/*.tree and stdout
    python3 reference/tree.py --tree P 6 5 r GAME OUT   # writes a tree for pegs; also B 6 5 r (or n), and C 12
"""
import argparse
from collections import Counter
from pathlib import Path
from typing import NamedTuple

import games
from document import RECORD, TRAILER, Record, Refused, Sheet, children_of, encode, read, record
from document import small_refutation, small_tree

HOME = Path(__file__).resolve().parent.parent / 'crates' / 'tree_tests'
MOST_GUESSES = 30
WORK = 2_000_000     # the most answers that are looked at, for all sets of one depth, when a tree is made
TREE = b'T'


# Judging

class Unfit(Refused):
    """A refusal of the stage Game; its place is put as it is shown."""

    def __str__(self):
        return f'no {self.number} Game {self.place or "-"}'


def read_for(number, file):
    """What a tree says: checks 1 to 7, with the game number's between 4 and 6."""
    late = sheet = None
    try:
        sheet = read(file, TREE)
    except Refused as refused:
        if refused.number < 5:
            raise
        late = refused
    if TRAILER.unpack(file[-TRAILER.size:])[-1] != number:
        raise Unfit(5)
    if late:
        raise late
    return sheet


def suits(rule, node):
    """Check 8, of one record."""
    return node.answer < rule.answers and node.value in (rule.guesses if node.kind else rule.codes)


def play(rule, nodes, branches, code):
    """The records that a code's play stands on, from the root; checks 9 and 10."""
    win = rule.answers - 1 if rule.naming else None
    at, came, path = len(nodes) - 1, None, []
    while nodes[at].kind:
        if len(path) == MOST_GUESSES or rule.naming and came == win:
            raise Unfit(10, f'c{code}')
        path.append(at)
        came = rule.answer(code, nodes[at].value)
        if came not in branches[at]:
            raise Unfit(9, f'c{code}')
        at = branches[at][came]
    if nodes[at].value != code or rule.naming and came != win:
        raise Unfit(10, f'c{code}')
    return [*path, at]


def figures(rule, records):
    """The worst case and the sum of a tree in form; checks 8 to 11."""
    nodes = [Record._make(fields) for fields in RECORD.iter_unpack(records)]
    for place, node in enumerate(nodes):
        if not suits(rule, node):
            raise Unfit(8, f'r{place}')
    branches = [{nodes[child].answer: child for child in children_of(nodes, place)} for place in range(len(nodes))]
    paths = [play(rule, nodes, branches, code) for code in rule.codes]
    idle = set(range(len(nodes))).difference(*paths)
    if idle:
        raise Unfit(11, f'r{min(idle)}')
    guesses = [len(path) - 1 for path in paths]
    return max(guesses), sum(guesses)


def verdict(rule, number, file):
    try:
        sheet = read_for(number, file)
        worst, total = figures(rule, sheet.records)
        if (sheet.first, sheet.second) != (worst, total):
            raise Unfit(12)
    except Refused as refused:
        return str(refused)
    return f'ok {worst} {total}'


# Making trees

class Tree(NamedTuple):
    """A guess with a tree for each answer, or a leaf, which has none."""
    value: int
    branches: dict = {}


def parts(rule, codes, guess):
    """The codes by their answers to a guess."""
    found = {}
    for code in codes:
        found.setdefault(rule.answer(code, guess), []).append(code)
    return found


def candidates(rule, codes):
    """The guesses to try, the better of equals first: all of them, or some codes where they are too many."""
    most = WORK // len(rule.codes)
    if len(rule.guesses) > most:
        return codes[::-(-len(codes) // most)]
    first = dict.fromkeys(codes) if rule.naming else {}
    return [*first, *(guess for guess in rule.guesses if guess not in first)]


def best_guess(rule, codes):
    """The guess with the smallest largest part."""
    best, least = None, len(codes) + 1
    for guess in candidates(rule, codes):
        largest = max(Counter([rule.answer(code, guess) for code in codes]).values())
        if largest < least:
            best, least = guess, largest
        if least * rule.answers < len(codes) + rule.answers:
            break
    return best


def grow(rule, codes, came=None):
    if (rule.naming and came == rule.answers - 1) or (not rule.naming and len(codes) == 1):
        return Tree(codes[0])
    guess = best_guess(rule, codes)
    return Tree(guess, {answer: grow(rule, part, answer) for answer, part in parts(rule, codes, guess).items()})


def records_of(tree, came=0):
    """A tree's records in post-order."""
    beneath = b''.join(records_of(branch, answer) for answer, branch in sorted(tree.branches.items()))
    return beneath + record(1 if tree.branches else 0, came, tree.value, len(beneath) // RECORD.size)


def paper(tree, number, worst, total):
    return encode(Sheet(ord(TREE), b'', records_of(tree), worst, total, number))


def sound(rule, number, tree):
    """A tree's file, with its own figures."""
    return paper(tree, number, *figures(rule, records_of(tree)))


def game_of(letter, *sizes):
    """The game that the command line names."""
    if letter == 'C':
        return games.Coins(int(sizes[0]))
    pegs, colours, repeats = sizes
    return {'P': games.Pegs, 'B': games.Blacks}[letter](int(pegs), int(colours), repeats == 'r')


# What is tried

def small_games():
    pegs = games.Pegs(2, 3, True)
    return {
        'pegs_1_2': (games.Pegs(1, 2, True), 7),
        'pegs_2_3': (pegs, 11),
        'pegs_3_4_plain': (games.Pegs(3, 4, False), 12),
        'blacks_2_3': (games.Blacks(2, 3, True), 13),
        'coins_4': (games.Coins(4), 14),
        'table_3_4': (games.Table([(0, 0, 1, 1), (0, 1, 0, 1), (2, 0, 0, 2)], 3), 15),
        'hinted': (games.Hints(games.Pegs(3, 4, True), [(6, 2)]), 16),
        'blurred': (games.Blur(pegs, (0, 1, 1, 1, 2), 3), 17),
    }


def large_games():
    return {
        'mastermind': (games.Pegs(4, 6, True), 1),
        'bulls_and_cows': (games.Pegs(4, 10, False), 2),
        'twelve_coins': (games.Coins(12), 3),
    }


SPECIAL = {
    'idle_branch': 'coins_4', 'idle_guess': 'coins_4', 'swapped_leaves': 'pegs_2_3', 'lost_branch': 'pegs_2_3',
    'win_to_a_guess': 'pegs_1_2', 'leaf_without_win': 'pegs_1_2', 'leaf_alone_named': 'pegs_1_2',
    'leaf_alone': 'table_3_4', 'thirty_guesses': 'table_3_4', 'thirty_one_guesses': 'table_3_4',
    'thirty_first_without_child': 'table_3_4', 'wrong_number': 'pegs_1_2', 'refutation': 'pegs_1_2',
}


def with_idle(tree, answers, idle):
    """A tree with one more branch, at the first guess that misses an answer, down the branches of highest answers."""
    missing = set(range(answers)).difference(tree.branches)
    if missing:
        return Tree(tree.value, {**tree.branches, max(missing): idle})
    last = max(tree.branches)
    return Tree(tree.value, {**tree.branches, last: with_idle(tree.branches[last], answers, idle)})


def without_branch(tree, answer):
    return Tree(tree.value, {a: branch for a, branch in tree.branches.items() if a != answer})


def again(count, last):
    """In the table: guess 0 so many times for the codes 0 and 1, and then the last tree; 2 and 3 need two guesses."""
    for _ in range(count - 1):
        last = Tree(0, {0: last})
    return Tree(0, {0: last, 1: Tree(1, {0: Tree(2), 1: Tree(3)})})


def with_leaves_exchanged(file):
    """A file without a title, with the values of its two lowest leaves exchanged."""
    first, second = [at for at in range(0, len(file) - TRAILER.size, RECORD.size) if file[at] == 0][:2]
    out = bytearray(file)
    out[first + 4:first + 8], out[second + 4:second + 8] = file[second + 4:second + 8], file[first + 4:first + 8]
    return bytes(out)


def with_tree(file, tree):
    """A file with another tree, the figures and the game as they were."""
    *_, first, second, _, game = TRAILER.unpack(file[-TRAILER.size:])
    return paper(tree, game, first, second)


def with_trailer(file, **changes):
    names = ('letter', 'edition', 'title', 'count', 'first', 'second', 'distance', 'game')
    fields = dict(zip(names, TRAILER.unpack(file[-TRAILER.size:])))
    for name, by in changes.items():
        fields[name] += by
    return file[:-TRAILER.size] + TRAILER.pack(*fields.values())


def special_files(trees, files):
    coins, pegs = trees['coins_4'], trees['pegs_2_3']
    idle_guess = Tree(coins.value, {0: Tree(0), 1: Tree(1)})
    pair = Tree(1, {0: Tree(0), 1: Tree(1)})
    return {
        'idle_branch': with_tree(files['coins_4'], with_idle(coins, 3, Tree(0))),
        'idle_guess': with_tree(files['coins_4'], with_idle(coins, 3, idle_guess)),
        'swapped_leaves': with_leaves_exchanged(files['pegs_2_3']),
        'lost_branch': with_tree(files['pegs_2_3'], without_branch(pegs, min(pegs.branches))),
        'win_to_a_guess': paper(Tree(0, {0: Tree(1, {1: Tree(1)}), 1: Tree(0, {1: Tree(0)})}), 7, 2, 4),
        'leaf_without_win': paper(Tree(0, {0: Tree(1), 1: Tree(0)}), 7, 1, 2),
        'leaf_alone_named': paper(Tree(0), 7, 1, 1),
        'leaf_alone': paper(Tree(0), 15, 1, 1),
        'thirty_guesses': paper(again(29, pair), 15, 30, 64),
        'thirty_one_guesses': paper(again(30, pair), 15, 30, 64),
        'thirty_first_without_child': paper(again(30, Tree(2, {1: Tree(0)})), 15, 30, 64),
        'wrong_number': with_trailer(small_tree(), game=1),
        'refutation': small_refutation(),
    }


def data(name):
    return HOME / 'data' / f'{name}.tree'


def make():
    trees, files = {}, {}
    for name, (rule, number) in {**small_games(), **large_games()}.items():
        trees[name] = grow(rule, list(rule.codes))
        files[name] = sound(rule, number, trees[name])
    assert files['pegs_1_2'] == small_tree()
    data('').parent.mkdir(parents=True, exist_ok=True)
    for name, file in {**files, **special_files(trees, files)}.items():
        data(name).write_bytes(file)
    (HOME / 'stdout').write_text(''.join(f'{line}\n' for line in report()))


# What comes of it

def broken(file):
    """A file with each of its bytes, one at a time, one higher."""
    for at in range(len(file)):
        yield at, file[:at] + bytes([(file[at] + 1) % 256]) + file[at + 1:]


def report():
    small = small_games()
    for name, (rule, number) in small.items():
        file = data(name).read_bytes()
        yield f'{name}: {verdict(rule, number, file)}'
        for at, changed in broken(file):
            yield f'{name} byte {at}: {verdict(rule, number, changed)}'
    for name, game in SPECIAL.items():
        yield f'{name}: {verdict(*small[game], data(name).read_bytes())}'
    for name, (rule, number) in large_games().items():
        file = data(name).read_bytes()
        yield f'{name}: {verdict(rule, number, file)}'
        yield f'{name} sum: {verdict(rule, number, with_trailer(file, second=1))}'
        yield f'{name} worst: {verdict(rule, number, with_trailer(file, first=1))}'
        yield f'{name} game: {verdict(rule, number + 1, file)}'
        yield f'{name} leaves: {verdict(rule, number, with_leaves_exchanged(file))}'


def main():
    parser = argparse.ArgumentParser(description='Prints what tree_tests must print.')
    parser.add_argument('--make', action='store_true', help='write the trees and the expected output')
    parser.add_argument('--tree', nargs='+', metavar='WORD',
                        help='a game (P or B, pegs, colours, r or n; or C, coins), its number, and the file to write')
    options = parser.parse_args()
    games.check()
    if options.tree:
        *sizes, number, path = options.tree
        rule = game_of(*sizes)
        Path(path).write_bytes(sound(rule, int(number), grow(rule, list(rule.codes))))
    elif options.make:
        make()
    else:
        for line in report():
            print(line)


if __name__ == '__main__':
    main()
