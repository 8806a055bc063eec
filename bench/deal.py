"""Random layouts and scripts. `deal.py FOLDER COUNT` writes the pairs `1.layout` and `1.script` to COUNT of them."""

import random, sys

from switches import text

CONTROLS = [0x01, 0x02, 0x04, 0x08, 0x10]
ENABLES = [0x0f, 0x0f, 0x0c, 0x06, 0x00, 0xff, 0xff, 0x3c, 0x8f]


class Deal:
    owners, least_ports, most_ports = 3, 1, 5   # so many domains, and ports of a switch
    branching = 0.4                             # how often a port leads to a switch
    foreign = 0.004                             # how often a vector lets through to a port of any domain
    budgets = [5, 400, 400, 400]

    def __init__(self, number):
        self.dice = random.Random(number)
        self.lines, self.functions = [], []
        self.is_guarded = self.dice.random() < 0.4
        self.version = self.dice.choice([1, 1, 2])
        self.switches = self.dice.randrange(1, 5)

    def controls(self):
        """All five in a guarded layout; in any other each is cleared one time in three. Egress is controlled in texts of
        version 2 alone, mostly."""
        egress = 0x20 if self.version == 2 and self.dice.random() < 0.7 else 0
        return egress + sum(control for control in CONTROLS if self.is_guarded or self.dice.random() < 2 / 3)

    def switch(self, above, bus, base, owner, depth):
        """Adds the lines of a switch, and answers the first bus and address that are free below it."""
        self.switches -= 1
        self.lines.append(f'switch {text(bus << 8)} {above}')
        inner, bus = bus + 1, bus + 2
        for device in range(self.dice.randrange(self.least_ports, self.most_ports + 1)):
            port, place, first, low = f'{inner:02x}:{device:02x}.0', len(self.lines), bus, base
            own = owner or self.dice.randrange(1, self.owners + 1)
            if depth < 3 and self.switches and self.dice.random() < self.branching:
                bus, base = self.switch(port, bus, base, own, depth + 1)
            else:
                if self.dice.random() < 0.9:
                    self.functions.append((bus << 8, own, base))
                    self.lines.append(f'function {text(bus << 8)} {base:08x}')
                bus, base = bus + 1, base + 0x100000
            self.lines.insert(place, f'port {port} {first:02x} {bus - 1:02x} {low:08x} {base - 1:08x} {self.controls():02x} {own}')
        return bus, base

    def layout(self):
        self.switch('root', 1, 0x90000000, None, 1)
        head = [f'pciefab {self.version}', f'frames {3 * self.owners + 3}']
        self.lines += self.vectors()
        for bdf, own, _ in self.functions:
            peers = [peer for peer, owner, _ in self.functions if owner == own]
            for page in self.dice.sample([1, 2, 3, 0x90000, 0x100001], 3):
                target = f'frame {own * 3 + self.dice.randrange(3)}'
                if self.dice.random() < 0.3:
                    # Itself among them, at times.
                    target = f'peer {text(self.dice.choice([bdf, *peers]))}'
                self.lines.append(f'map {text(bdf)} {page:x} {target} {self.dice.choice(["r", "w", "rw", "rw"])}')
            if self.dice.random() < 0.3:
                limits = [self.dice.randrange(low, low + 5) for low in (1, 16) * 3]
                self.lines.append(f'credit {text(bdf)} ' + ' '.join(map(str, limits)))
        for own in sorted({own for _, own, _ in self.functions}):
            self.lines.append(f'budget {own} {self.dice.choice(self.budgets)}')
        return self.garbled(head + self.lines)

    def vectors(self):
        """Some of the lines that ports may have, with bits that are clear for ports of the same domain, and now and then
        for another."""
        ports = [line.split() for line in self.lines if line.startswith('port')]
        below = {bdf >> 8: own for bdf, own, _ in self.functions}
        lines = []
        for _, port, *_, controls, own in ports:
            if not int(controls, 16) & 0x20 or self.dice.random() < 0.2:
                continue
            vector = 0xffffffff
            for _, other, first, *_, owner in ports:
                is_good = other[:2] == port[:2] and other != port and owner == own and int(first, 16) in below
                if is_good and self.dice.random() < 0.7 or self.dice.random() < self.foreign:
                    vector &= ~(1 << int(other[3:5], 16))
            lines.append(f'egress {port} {vector:08x}')
        return lines

    def script(self):
        lines = []
        for _ in range(self.dice.randrange(5, 120)):
            lines.append(self.command())
            if self.dice.random() < 0.3:
                lines.append(f'sweep {self.dice.choice([1, 1, 2, 5, 30])}')
        if self.dice.random() < 0.9:
            lines.append('sweep 1000')
        return self.garbled(lines)

    def garbled(self, lines):
        """Now and then a line is lost, or stands twice, or has another character."""
        if self.dice.random() < 0.05:
            number = self.dice.randrange(len(lines))
            line = lines.pop(number)
            at = self.dice.randrange(len(line))
            other = line[:at] + self.dice.choice('019 f') + line[at + 1:]
            lines[number:number] = self.dice.choice([[], [line, line], [other], [other]])
        return lines

    def command(self):
        bdf, own, _ = self.dice.choice(self.functions or [(0xfe00, 1, 0)])
        if self.dice.random() < 0.02:
            bdf ^= 0x100
        roll = self.dice.random()
        if roll < 0.6:
            return f'submit {text(bdf)} {self.packet(bdf) or "-"}'
        if roll < 0.75:
            return f'tick {text(bdf)}'
        if self.dice.random() < 0.3:
            return f'mmio {own} read {text(bdf)} {self.offset():03x} {self.dice.choice([0, 1, 1, 2, 4, 64, 65])}'
        offset, data = self.written()
        return f'mmio {own} write {text(bdf)} {offset:03x} {data}'

    def offset(self):
        return self.dice.choice([0, 4, 8, 12, 0x100, 0x400, 0x404, 0x401, 0xffc])

    def written(self):
        """A start or a stop of the program, one of its lines, or data."""
        roll = self.dice.random()
        if roll < 0.3:
            return 4, f'0{self.dice.choice("1110")}000000'
        if roll < 0.8:
            line = [self.dice.choice([0, 1, 1, 2, 2, 3, 4]), self.dice.choice([1, 1, 2, 4, 64, 0])]
            line += self.dice.choice([[0, 0], [4, 0], [0, 2], [1, 0], [0, 4]]) + [self.dice.randrange(2), 0, 0, 0]
            return 0x100 + 16 * self.dice.randrange(3), bytes(line).hex() + self.address().to_bytes(8, 'little').hex()
        return self.offset(), self.dice.randbytes(self.dice.choice([1, 3, 4, 8, 40])).hex()

    def address(self):
        """In a page that may be mapped, in that of a frame's number, or in the register page of any function."""
        page = self.dice.choice([1, 1, 2, 3, 0x90000, 0x100001, self.dice.randrange(12)])
        if self.functions and self.dice.random() < 0.3:
            page = self.dice.choice(self.functions)[2] >> 12
        return page << 12 | self.dice.choice([0, 0, 4, 0x100, 0x400, 0xff8, 0xffc])

    def requester(self, bdf):
        """Mostly the function itself, else another one, a host, or nobody."""
        if self.dice.random() < 0.75:
            return bdf
        other = self.dice.choice(self.functions)[0] if self.functions else bdf
        host, nobody = self.dice.randrange(5) << 3, self.dice.choice([0x0100, 0xfe00, bdf | 8])
        return self.dice.choice([other, other, host, nobody])

    def fetch_add(self, bdf):
        """Mostly of one or two words at an address that is a multiple of their size."""
        count = self.dice.choice([1, 1, 1, 2, 2, 2, 2, 3])
        address = self.address() + self.dice.choice([0, 0, 0, 0, 4, 2])
        is_long = address >> 32 != 0 or self.dice.random() < 0.03
        head = 0x4c << 24 | is_long << 29 | self.dice.choice([0, 0, 0x2000, 0x1000, 0x40000]) | count
        if self.dice.random() < 0.2:
            # Address types.
            head |= self.dice.choice([0x400, 0x800, 0x800, 0xc00])
        words = [head, self.requester(bdf) << 16 | self.dice.randrange(8) << 8 | self.dice.randrange(256)]
        words += [address >> 32, address & 0xffffffff] if is_long else [address & 0xffffffff]
        # Operands that carry, and others.
        data = self.dice.choice([b'\xff' * 4 * count, self.dice.randbytes(4 * count), b'\x01' + bytes(4 * count - 1)])
        return b''.join(word.to_bytes(4, 'big') for word in words).hex() + data.hex()

    def packet(self, bdf):
        """Mostly a request to memory, by the function or in the name of another."""
        if self.dice.random() < 0.05:
            return self.dice.randbytes(self.dice.randrange(0, 40)).hex()
        if self.dice.random() < 0.17:
            return self.fetch_add(bdf)
        kind = self.dice.choice([0, 0, 0, 0, 0, 0, 0, 2, 4, 0x34, 0x0a, 0x0c])
        has_data = self.dice.random() < 0.4
        count = self.dice.choice([1, 1, 1, 2, 4, 33, 64, 65])
        address = self.address()
        is_long = address >> 32 != 0 or self.dice.random() < 0.03
        enables = self.dice.choice(ENABLES) if self.dice.random() < 0.2 else 0x0f if count == 1 else 0xff
        head = (kind << 24 | has_data << 30 | is_long << 29 | self.dice.choice([0, 0, 0x2000, 0x1000, 0x40000]) | count)
        if self.dice.random() < 0.2:
            # Address types.
            head |= self.dice.choice([0x400, 0x800, 0x800, 0xc00])
        if self.dice.random() < 0.05:
            head |= self.dice.choice([0x4000, 0x8000, 0x100000])
        words = [head, self.requester(bdf) << 16 | self.dice.randrange(8) << 8 | enables]
        words += [address >> 32, address & 0xffffffff] if is_long else [address & 0xffffffff]
        data = self.dice.randbytes(4 * count) if has_data else b''
        return b''.join(word.to_bytes(4, 'big') for word in words).hex() + data.hex()


def write(name, lines):
    with open(name, 'w') as file:
        file.write('\n'.join(lines) + '\n')


if __name__ == '__main__':
    folder, count = sys.argv[1], int(sys.argv[2])
    for number in range(1, count + 1):
        deal = Deal(number)
        write(f'{folder}/{number}.layout', deal.layout())
        write(f'{folder}/{number}.script', deal.script())
