#!/usr/bin/env python3
"""Dumps of random machines, and what `import` makes of them.

    bench/dumps.py PROGRAM [MACHINES [EDITS]]

Makes layouts by chance, the dump that `lspci -xxxx` would print of a machine with such ports, switches and functions, and the
list of owners; and tests that `import` gives back the layout's lines: its tree, its owners by the list, and its controls. Then
edits bytes of such dumps by chance, and tests that `import` gives a text that `run` takes, or one line on standard error that
names a line of the dump or says what it hasn't, and no other exit status than 0, 5 and 1. A machine without a function has to be
refused. Prints how many of each there were.
"""
import random
import subprocess
import sys
import tempfile
from pathlib import Path


class Space:
    """A configuration space, byte by byte."""

    def __init__(self, size):
        self.bytes = bytearray(size)

    def put(self, offset, value, count):
        self.bytes[offset:offset + count] = value.to_bytes(count, "little")

    def rows(self):
        for at in range(0, len(self.bytes), 16):
            yield f"{at:02x}: " + " ".join(f"{b:02x}" for b in self.bytes[at:at + 16])


def express(space, port_type):
    space.put(0x06, 0x0010, 2)
    space.put(0x34, 0x40, 1)
    space.put(0x40, 0x10, 1)
    space.put(0x42, port_type << 4 | 2, 2)


def bridge(chance, port_type, primary, secondary, subordinate, base, limit, controls):
    """The space of a port; `controls` is None where it has no ACS."""
    space = Space(4096)
    space.put(0x00, 0x10b5, 2)
    space.put(0x02, 0x8747, 2)
    space.put(0x0a, 0x0604, 2)
    space.put(0x0e, 0x01 | chance.choice((0, 0x80)), 1)
    for offset, bus in ((0x18, primary), (0x19, secondary), (0x1a, subordinate)):
        space.put(offset, bus, 1)
    space.put(0x20, base >> 16, 2)
    space.put(0x22, limit >> 16 & 0xfff0, 2)
    space.put(0x24, 0xfff1, 2)
    space.put(0x26, 0x0001, 2)
    express(space, port_type)
    if controls is not None:
        behind = chance.choice((0x100, 0x148))
        if behind != 0x100:
            space.put(0x100, 0x0001 | 1 << 16 | behind << 20, 4)
        space.put(behind, 0x000d | 1 << 16, 4)
        space.put(behind + 4, 0x1f, 2)
        space.put(behind + 6, controls, 2)
    return space


def endpoint(chance, page):
    space = Space(chance.choice((64, 256, 4096)))
    space.put(0x00, 0x8086, 2)
    space.put(0x02, 0x1521, 2)
    space.put(0x0a, 0x0200, 2)
    at = 0x10
    if chance.random() < 0.3:
        space.put(at, 0xe001, 4)
        at += 4
    if chance.random() < 0.5:
        space.put(at, page | 4, 4)
    else:
        space.put(at, page, 4)
    if len(space.bytes) > 64:
        express(space, 0)
    return space


class Machine:
    """A random layout, and the machine that has it: bus N of the layout is bus N - 2 of the machine."""

    def __init__(self, chance):
        self.chance = chance
        self.lines = []
        self.devices = []
        self.owners = []
        self.switches = 1
        self.switch(0x02, 0x03, 0xff, 0x90000000 >> 20, 0xc0, 0, None)

    def add(self, bus, device, name, space, line):
        self.devices.append((bus - 2, device, name, space))
        self.lines.append(((bus - 2, device), line))

    def switch(self, bus, first, last, base, megabytes, level, owner):
        """Ports on this bus, with buses first to last below them, and so many MB from `base` on."""
        chance = self.chance
        count = chance.randint(1, min(8, last - first + 1, megabytes))
        width = (last - first + 1) // count
        room = megabytes // count
        for at, device in zip(range(count), sorted(chance.sample(range(32), count))):
            low, high = first + at * width, first + at * width + chance.randint(0, width - 1)
            if owner is None:
                domain = at + 1 if chance.random() < 0.7 else chance.randint(1, 31)
                self.owners.append((bus - 2, device, domain))
            else:
                domain = owner
            controls = chance.choice((None, 0x1f, 0x1d, chance.randint(0, 31)))
            start = base + at * room
            window = start << 20, (start + room << 20) - 1
            self.add(bus, device, "PCI bridge: a port", bridge(chance, 4 if level == 0 else 6, bus - 2, low - 2, high - 2, *window, controls),
                     f"port {bus:02x}:{device:02x}.0 {low:02x} {high:02x} {window[0]:08x} {window[1]:08x} {controls or 0:02x} {domain}")
            kind = chance.random()
            if kind < 0.4 and level < 2 and high > low + 1 and self.switches < 8:
                self.switches += 1
                self.add(low, 0, "PCI bridge: an upstream port", bridge(chance, 5, low - 2, low - 1, high - 2, *window, None),
                         f"switch {low:02x}:00.0 {bus:02x}:{device:02x}.0")
                self.switch(low + 1, low + 2, high, start, room, level + 1, domain)
            elif kind < 0.9:
                page = window[0] + 4096 * chance.randint(0, room * 256 - 1)
                self.add(low, 0, "Ethernet controller: a card", endpoint(chance, page), f"function {low:02x}:00.0 {page:08x}")

    def dump(self):
        text = []
        for bus, device, name, space in sorted(self.devices, key=lambda d: d[:2]):
            text += [f"{bus:02x}:{device:02x}.0 {name}", *space.rows(), ""]
        return "\n".join(text) + "\n"

    def list(self):
        return "".join(f"{bus:02x}:{device:02x}.0 {domain}\n" for bus, device, domain in self.owners)

    def layout(self):
        return [line for _, line in sorted(self.lines, key=lambda pair: pair[0])]


def run(*words, **more):
    return subprocess.run(words, capture_output=True, timeout=60, **more)


def edited(chance, dump):
    """The dump with some bytes changed, put in, or taken out."""
    dump = bytearray(dump)
    for _ in range(chance.choice((1, 1, 2, 8))):
        at = chance.randrange(len(dump))
        how = chance.random()
        if how < 0.6:
            dump[at] = chance.choice(b"0123456789abcdef") if chance.random() < 0.7 else chance.randrange(256)
        elif how < 0.8:
            dump[at:at] = bytes(chance.choices(b"0123456789abcdef: .\n", k=chance.choice((1, 3))))
        else:
            del dump[at:at + chance.choice((1, 3, 48, 4000))]
    return bytes(dump)


def main():
    program = sys.argv[1]
    machines = int(sys.argv[2]) if len(sys.argv) > 2 else 1000
    edits = int(sys.argv[3]) if len(sys.argv) > 3 else 10000
    room = Path(tempfile.mkdtemp())
    dump, owners, script, layout = (room / name for name in ("dump", "owners", "script", "layout"))
    script.write_text("sweep 1\n")
    dumps = []
    empty = 0
    for seed in range(machines):
        machine = Machine(random.Random(seed))
        dump.write_text(machine.dump())
        owners.write_text(machine.list())
        got = run(program, "import", str(dump), "--owners", str(owners))
        if not any(line.startswith("function") for line in machine.layout()):
            # A layout without a function isn't given.
            if got.returncode != 1 or got.stdout:
                sys.exit(f"machine {seed}: a layout without a function")
            empty += 1
            continue
        if got.returncode != 0:
            sys.exit(f"machine {seed}: {got.stderr.decode()}")
        lines = [line for line in got.stdout.decode().splitlines() if line.startswith(("port", "function", "switch")) and not line.endswith(" root")]
        if lines != machine.layout():
            (room / "wanted").write_text("\n".join(machine.layout()) + "\n")
            layout.write_bytes(got.stdout)
            sys.exit(f"machine {seed}: not its layout, see {room}")
        if len(dumps) < 100:
            dumps.append(machine.dump().encode())
    print(f"{machines - empty} machines have their layouts, {empty} have no function")
    counts = {}
    chance = random.Random(0)
    for number in range(edits):
        dump.write_bytes(edited(chance, chance.choice(dumps)))
        got = run(program, "import", str(dump))
        first = got.stderr.decode(errors="replace").split(":")[0].split(" ")[0]
        if got.returncode in (0, 5):
            layout.write_bytes(got.stdout)
            read = run(program, "run", str(layout), str(script))
            if read.returncode != 0:
                sys.exit(f"edit {number}: a text that is refused: {read.stderr.decode()}, see {room}")
            first = "a layout"
        elif got.returncode != 1 or got.stdout or got.stderr.count(b"\n") != 1:
            sys.exit(f"edit {number}: status {got.returncode}, see {room}")
        counts[first] = counts.get(first, 0) + 1
    print(f"{edits} edits: {counts}")


if __name__ == "__main__":
    main()
