#!/usr/bin/env python3
"""Holds what `pciefab explain` tells against `pciefab run`.

`attacks.py PROGRAM random [COUNT]` deals 200 random layouts, or COUNT, and runs each script that `explain` tells of one:
the victim's part of the report or its journal has to be another than without the script. In a guarded layout none may be
told. A read of the victim's that is said to be closed by another's completion has to be closed otherwise than without the
attacker's line. `attacks.py PROGRAM cleared LAYOUT [PAIRS]` clears each of the five controls at each port of a layout in turn,
and then PAIRS random pairs of them at two ports, and runs all candidates in each: writes, reads and FetchAdds of each function
in each name, for each page that is a frame's number, mapped, a register page or none of these, with AT 00 and 10; and reads in
the name of a function, ahead of one of its own for each page that it may read, by each number of sweeps from 1 to 20. Where one
is seen to land in some way of harm, `explain` has to tell a witness of that way for these two domains, and where it is a read, one
of `answers reads` for the two in turn; where fewer than two domains own a function it says nothing of any. As many layouts are tried
side by side as there are processors. It prints what differs, and its last line counts.
"""

import itertools, random, re, subprocess, sys, tempfile
from concurrent.futures import ProcessPoolExecutor

from deal import Deal

FRAME_WRITTEN, FRAME_READ, PAGE_WRITTEN, PAGE_READ, TAG_CLOSED, COMPLETION, COUNTS, ANSWERS = range(8)
WORDS = ['write to frame', 'read of frame', 'write to registers', 'read of registers', 'Tag of', 'completion not asked for', 'counts changed', 'answers reads of']
MOST_AHEAD = 20
CONTROLS = [1, 2, 4, 8, 16]
program = sys.argv[1]
work = tempfile.TemporaryDirectory()


def put(name, text):
    path = f'{work.name}/{name}'
    with open(path, 'w') as file:
        file.write(text)
    return path


def ran(*words):
    done = subprocess.run([program, *words], capture_output=True, text=True)
    return done.stdout, done.returncode


def parts(report):
    """The lines of each domain in a report, by its number."""
    found, own = {}, None
    for line in report.splitlines():
        if line.startswith('domain '):
            own = found.setdefault(int(line.split()[1]), [])
        if own is not None:
            own.append(line)
    return found


def told(text):
    """The witnesses of an explanation: attacker, victim, way and script; and the pairs that it names."""
    witnesses, pairs, lines = [], set(), text.splitlines()
    for place, line in enumerate(lines):
        head = re.match(r'domain (\d+) reaches domain (\d+): (.*)$', line)
        if not head:
            continue
        pair = int(head[1]), int(head[2])
        pairs.add(pair)
        if head[3] == 'none found':
            continue
        script = list(itertools.takewhile(lambda each: each.split()[0] in ('submit', 'sweep'), lines[place + 1:]))
        way = next(number for number, words in enumerate(WORDS) if head[3].startswith(words))
        witnesses.append((*pair, way, '\n'.join(script) + '\n'))
    return witnesses, pairs


class Lines:
    """What the lines of a layout say."""

    def __init__(self, text):
        self.text = text
        fields = [line.split() for line in text.splitlines()]
        self.ports = [each for each in fields if each[0] == 'port']
        self.owners = sorted({int(each[7]) for each in self.ports})
        above = {each[2]: int(each[7]) for each in self.ports}
        self.functions = {each[1]: (above[each[1][:2]], int(each[2], 16)) for each in fields if each[0] == 'function'}
        self.maps = [(each[1], int(each[2], 16), each[3], each[4]) for each in fields if each[0] == 'map']
        self.readable = [(each[1], int(each[2], 16)) for each in fields if each[0] == 'map' and 'r' in each[5]]
        self.frames = {int(target) for _, _, kind, target in self.maps if kind == 'frame'}
        self.is_guarded = all(int(each[6], 16) & 31 == 31 for each in self.ports)
        self.has_nothing_to_keep = len({owner for owner, _ in self.functions.values()}) < 2


def cleared(text, places):
    """The layout in which the control of each (port, control) is clear."""
    lines = []
    for line in text.splitlines():
        fields = line.split()
        if fields[0] == 'port':
            bits = int(fields[6], 16)
            for port, control in places:
                if fields[1] == port:
                    bits &= ~control
            fields[6] = f'{bits:02x}'
        lines.append(' '.join(fields))
    return '\n'.join(lines) + '\n'


def number(name):
    bus, device, function = re.match(r'(..):(..)\.(.)', name).groups()
    return int(bus, 16) << 8 | int(device, 16) << 3 | int(function)


def candidates(layout, function):
    """Packets that a function may submit, as hexadecimal."""
    names = [number(each) for each in layout.functions] + [owner << 3 for owner in layout.owners]
    bars = {bar for _, bar in layout.functions.values()}
    pages = {0x100000, *layout.frames, *(page for _, page, _, _ in layout.maps)}
    addresses = [page << 12 for page in sorted(pages)] + [bar | 0x400 for bar in sorted(bars)]
    for name, address, at, kind in itertools.product(names, addresses, (0, 8), (0x00, 0x40, 0x4c)):
        high = address >= 1 << 32
        first = (kind | 0x20 * high) << 24 | at << 8 | 1
        yield f'{first:08x}{name:04x}000f' + f'{address:0{16 if high else 8}x}' + ('deadbeef' if kind else '')


def read_of(name, address):
    """A plain read of 1 DW in this name."""
    high = address >= 1 << 32
    return f'{0x20 * high << 24 | 1:08x}{name:04x}000f' + f'{address:0{16 if high else 8}x}'


def is_plain_read(packet):
    return packet[:8] in ('00000001', '20000001')


def counts(lines):
    words = lines[0].split()
    return words[5], words[7]


def rows(lines, word):
    return [line for line in lines if line.startswith(word)]


def harms(layout, path, function, packet, before):
    """(victim, way) of each harm that is seen of a packet."""
    script = put('script', f'submit {function} {packet}\nsweep 1000\n')
    report, _ = ran('run', path, script)
    after, attacker, found = parts(report), layout.functions[function][0], set()
    data = [line for line in rows(after[attacker], f'record {function}') if line.split()[3] == 'SC']
    for victim in layout.owners:
        if victim == attacker:
            continue
        old, new = before[victim], after[victim]
        if rows(old, 'frame') != rows(new, 'frame'):
            found.add((victim, FRAME_WRITTEN))
        if rows(old, 'regs') != rows(new, 'regs'):
            found.add((victim, PAGE_WRITTEN))
        if counts(old)[1] != counts(new)[1]:
            found.add((victim, COMPLETION))
        if counts(old) != counts(new):
            found.add((victim, COUNTS))
        if data:
            journal, _ = ran('journal', path, script, str(victim))
            if f'function {function}' in journal or f' {packet}' in journal:
                found.add((victim, FRAME_READ if packet[4:6] == '08' else PAGE_READ))
    return found


def closed(path, script, victim, function):
    """The completion that first closed a request of the victim's function in a run of this script."""
    report, _ = ran('run', path, put('race', script))
    return next(iter(rows(parts(report)[victim], f'record {function}')), None)


def closings(layout, path, function, packet):
    """(victim, way) of each own read of a victim that is closed by the completion of this read in its name."""
    attacker, found = layout.functions[function][0], set()
    for requester, page in layout.readable:
        victim = layout.functions[requester][0]
        if victim == attacker or (victim, TAG_CLOSED) in found or int(packet[8:12], 16) != number(requester):
            continue
        own = f'submit {requester} {read_of(number(requester), page << 12)}\n'
        alone = closed(path, own + 'sweep 1000\n', victim, requester)
        for ahead in range(1, MOST_AHEAD + 1):
            other = closed(path, f'submit {function} {packet}\nsweep {ahead}\n{own}sweep 1000\n', victim, requester)
            if alone and other and alone != other:
                found.add((victim, TAG_CLOSED))
                break
    return found


def searched(layout, path):
    """(attacker, victim, way) of each harm that some candidate does."""
    before = parts(ran('run', path, put('nothing', 'sweep 1\n'))[0])
    found = set()
    for function, (attacker, _) in layout.functions.items():
        for packet in candidates(layout, function):
            for victim, way in harms(layout, path, function, packet, before):
                found.add((attacker, victim, way))
                # (who reads another's data got an answer of that one)
                if way in (FRAME_READ, PAGE_READ):
                    found.add((victim, attacker, ANSWERS))
            if is_plain_read(packet) and not {(attacker, victim, TAG_CLOSED) for victim in layout.owners} <= found:
                found |= {(attacker, victim, way) for victim, way in closings(layout, path, function, packet)}
    return found


def lands(layout, path, witness):
    attacker, victim, way, text = witness
    script = put('told', text)
    changed = ran('journal', path, script, str(victim))[0] != ''
    if way == TAG_CLOSED:
        first, *own = text.splitlines(keepends=True)
        reader = own[1].split()[1]
        alone, other = (closed(path, ''.join(lines), victim, reader) for lines in (own, [first, *own]))
        changed = layout.functions[reader][0] == victim and None not in (alone, other) and alone != other
    submitter = text.split()[1]
    return changed and layout.functions[submitter][0] == (victim if way == ANSWERS else attacker) and attacker != victim


def told_right(layout, path):
    """What is told, and how many of it are wrong."""
    text, status = ran('explain', path)
    witnesses, pairs = told(text)
    wrong = sum(not lands(layout, path, witness) for witness in witnesses)
    is_quiet = layout.has_nothing_to_keep or layout.is_guarded
    expected = 6 if layout.has_nothing_to_keep else 0 if layout.is_guarded else 3 if witnesses else 4
    wrong += status != expected
    wrong += is_quiet and bool(witnesses)
    wrong += not is_quiet and pairs != set(itertools.permutations(layout.owners, 2))
    return witnesses, wrong


def of_random(count):
    wrong = read = guarded = shown = 0
    for deal in range(1, count + 1):
        path = put('layout', '\n'.join(Deal(deal).layout()) + '\n')
        text, status = ran('explain', path)
        if status == 1:
            continue
        layout = Lines(open(path).read())
        witnesses, faults = told_right(layout, path)
        read, guarded, shown, wrong = read + 1, guarded + layout.is_guarded, shown + len(witnesses), wrong + faults
        if faults:
            print(f'deal {deal}: {faults} wrong')
    print(f'{read} layouts, {guarded} guarded, {shown} witnesses, {wrong} wrong')
    return wrong


def begin():
    """A process of its own has a folder of its own."""
    global work
    work = tempfile.TemporaryDirectory()


def checked(base, places):
    """The witnesses told where these controls are cleared, how many of them are wrong, and what is found and not told."""
    path = put('layout', cleared(base, places))
    layout = Lines(open(path).read())
    witnesses, faults = told_right(layout, path)
    lost = searched(layout, path) - {witness[:3] for witness in witnesses}
    return places, len(witnesses), faults, sorted(lost)


def of_cleared(base, pairs):
    dice, wrong, missed, shown = random.Random(1), 0, 0, 0
    ports = [each[1] for each in Lines(base).ports]
    singles = [[place] for place in itertools.product(ports, CONTROLS)]
    doubles = [list(zip(two, controls)) for two in itertools.combinations(ports, 2) for controls in itertools.product(CONTROLS, repeat=2)]
    cases = singles + dice.sample(doubles, min(pairs, len(doubles)))
    with ProcessPoolExecutor(initializer=begin) as pool:
        for done, (places, witnesses, faults, lost) in enumerate(pool.map(checked, itertools.repeat(base), cases), 1):
            wrong, missed, shown = wrong + faults, missed + len(lost), shown + witnesses
            if faults or lost:
                print(places, f'{faults} wrong, not told:', lost)
            if done % 25 == 0:
                print(f'{done} of {len(cases)}', flush=True)
    print(f'{len(singles)} controls and {min(pairs, len(doubles))} pairs, {shown} witnesses, {wrong} wrong, {missed} not told')
    return wrong + missed


if sys.argv[2] == 'random':
    sys.exit(of_random(int(sys.argv[3]) if len(sys.argv) > 3 else 200) > 0)
sys.exit(of_cleared(open(sys.argv[3]).read(), int(sys.argv[4]) if len(sys.argv) > 4 else 20) > 0)
