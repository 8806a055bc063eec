"""Random layouts of all sizes, with scripts that flood them. `floods.py FOLDER SEED COUNT` writes the pairs `N.layout` and
`N.script` of each of the COUNT seeds N from SEED on."""

import sys

from deal import Deal, write


class Flood(Deal):
    foreign = 0
    budgets = [40, 4000, 16384, 16384]

    def __init__(self, number):
        super().__init__(number)
        self.is_guarded = self.dice.random() < 0.6
        self.owners = self.dice.choice([1, 3, 8, 31])
        self.least_ports, self.most_ports = self.dice.choice([(1, 3), (1, 5), (1, 8), (8, 8)])
        self.branching = self.dice.choice([0.4, 0.4, 1])
        self.switches = self.dice.choice([1, 1, 1, 1, 2, 3, 5, 8])

    def garbled(self, lines):
        return lines

    def script(self):
        return [self.command() for _ in range(self.dice.choice([30, 300, 1500]))]


if __name__ == '__main__':
    folder, first, count = sys.argv[1], int(sys.argv[2]), int(sys.argv[3])
    for number in range(first, first + count):
        flood = Flood(number)
        write(f'{folder}/{number}.layout', flood.layout())
        write(f'{folder}/{number}.script', flood.script())
