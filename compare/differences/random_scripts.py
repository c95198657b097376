"""Random Python scripts of defs, classes, lambdas, assignments, ifs, loops and calls over one to
three names."""

import re
from random import Random
from textwrap import indent

POOLS = (['x'], ['x', 'y'], ['x', 'y'], ['x', 'y', 'z'], ['x', 'm'], ['x', 'len'],
         ['list', 'treeset'], ['C', '__x', '_C__x'])
DEF = '(P):B\n return E'
# S a statement, E an expression, N a name, P a parameter or none, B a body, M a member of a class,
# A all of them
GRAMMAR = {
    'S': ('N = E', 'N = E', '(N, N) = (E, E)', 'E', 'E', 'N()', 'def N' + DEF,
          'def N' + DEF + '\nN()', 'class N:A', 'class N:A\nN()', 'if E:B', 'if E:B\nelse:B',
          'while E:B\n break', 'for N in []:B', 'for N in [0, 1]:B', 'for N in [0, 1]:B'),
    'E': ('0', '1', 'N', 'N', 'N()', 'N()', 'N(E)', '[E, E]', '(E or E)', '(lambda P: E)',
          '(lambda P: E)()'),
    'M': ('N = E', 'def m(self):B', 'def m(self):B', 'def m(self, N):B'),
}


class Writer:
    """Writes a random script of about so many parts."""

    def __init__(self, rng: Random, parts: int) -> None:
        self.rng, self.left, self.pool = rng, parts, rng.choice(POOLS)

    def write(self, letter: str, depth: int = 0) -> str:
        """What takes the place of a letter."""
        if letter in 'NP':
            return self.rng.choice(self.pool if letter == 'N' else ['', '', *self.pool])
        if letter in 'BA':
            lines = [self.write('S' if letter == 'B' else 'M', depth)
                     for _ in range(self.rng.randint(1, 3))]
            return '\n' + indent('\n'.join(lines), ' ')
        self.left -= 1
        patterns = GRAMMAR[letter] if self.left > 0 and depth < 8 else GRAMMAR[letter][:6]
        return re.sub('[A-Z]', lambda found: self.write(found[0], depth + 1),
                      self.rng.choice(patterns))

    def script(self) -> str:
        lines = []
        while self.left > 0:
            lines.append(self.write('S') + '\n')
        return ''.join(lines)


def random_script(rng: Random) -> str:
    return Writer(rng, rng.choice((3, 5, 8, 12, 18, 30))).script()
