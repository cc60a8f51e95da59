"""The games of docs/GAMES.md in Python, for comparison only; written from that page and docs/RULES.md.

Every game has `naming`, the number `answers`, the `codes` and the `guesses` in rising order (both can be asked whether
a number is among them), and `answer(code, guess)` for a code and a guess of the game.
"""
from itertools import product
from operator import eq


class Pegs:
    naming = True

    def __init__(self, pegs, colours, repeats):
        rows = enumerate(product(range(colours), repeat=pegs))
        self.rows = {number: row for number, row in rows if repeats or len(set(row)) == pegs}
        self.counts = {number: [row.count(colour) for colour in range(colours)] for number, row in self.rows.items()}
        self.codes = self.guesses = self.rows.keys()
        self.pairs = self.told(pegs)
        self.answers = len(self.pairs)

    @staticmethod
    def told(pegs):
        """The pairs of black and white that can come, numbered through."""
        pairs = ((black, white) for black in range(pegs + 1) for white in range(pegs + 1 - black))
        return {pair: number for number, pair in enumerate(p for p in pairs if p != (pegs - 1, 1))}

    def black(self, code, guess):
        return sum(map(eq, self.rows[code], self.rows[guess]))

    def answer(self, code, guess):
        black = self.black(code, guess)
        return self.pairs[black, sum(map(min, self.counts[code], self.counts[guess])) - black]


class Blacks(Pegs):
    def __init__(self, pegs, colours, repeats):
        super().__init__(pegs, colours, repeats)
        self.answers = pegs + 1

    def answer(self, code, guess):
        return self.black(code, guess)


class Coins:
    naming = False
    answers = 3

    def __init__(self, coins):
        rows = enumerate(product(range(3), repeat=coins))
        self.rows = {number: row for number, row in rows if row.count(1) == row.count(2) > 0}
        self.codes, self.guesses = range(2 * coins), self.rows.keys()

    def answer(self, code, guess):
        """There are as many coins left as right, so that only the bad one moves the beam."""
        coin, light = divmod(code, 2)
        pan = self.rows[guess][coin]
        return 3 - pan if light and pan else pan

    def weighed(self, code, guess):
        """The same answer by the weights."""
        loads = [0, 0, 0]
        for coin, pan in enumerate(self.rows[guess]):
            loads[pan] += (1 if code % 2 else 3) if coin == code // 2 else 2
        _, left, right = loads
        return 1 if left > right else 2 if left < right else 0


class Table:
    naming = False

    def __init__(self, rows, answers):
        self.rows, self.answers = rows, answers
        self.codes, self.guesses = range(len(rows[0])), range(len(rows))

    def answer(self, code, guess):
        return self.rows[guess][code]


class Hints:
    """A layer: of the codes beneath, those that give the answers that came."""

    def __init__(self, rule, hints):
        self.naming, self.answers, self.guesses, self.answer = rule.naming, rule.answers, rule.guesses, rule.answer
        self.codes = [code for code in rule.codes if all(rule.answer(code, guess) == came for guess, came in hints)]


class Blur:
    """A layer: what is told in place of each answer beneath."""

    def __init__(self, rule, told, answers):
        self.naming, self.codes, self.guesses = rule.naming, rule.codes, rule.guesses
        self.rule, self.told, self.answers = rule, told, answers

    def answer(self, code, guess):
        return self.told[self.rule.answer(code, guess)]


def check():
    """What docs/GAMES.md works by hand."""
    six, ten, coins = Pegs(4, 6, True), Pegs(4, 10, False), Coins(3)
    assert [Pegs(pegs, 2, True).answers for pegs in range(1, 7)] == [2, 5, 9, 14, 20, 27]
    assert six.answer(230, 506) == 7 and Blacks(4, 6, True).answer(230, 506) == 1
    assert ten.answer(1234, 3154) == 7 and ten.answer(1234, 3145) == 3
    assert [coins.answer(code, 15) for code in (0, 1, 4)] == [1, 2, 0]
    assert all((six.answer(code, 506) == 13) == (code == 506) for code in six.codes)
    assert all(coins.answer(c, g) == coins.weighed(c, g) for c in coins.codes for g in coins.guesses)
