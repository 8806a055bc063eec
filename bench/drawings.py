#!/usr/bin/env python3
"""Checks drawings: `drawings.py PROGRAM LAYOUT..` has PROGRAM draw each layout. What it prints has to be well-formed XML of
the size that it says. Each switch, each port and each function of the layout has one element of its class, with its ID, its
owner and the letters of its controls; the letters that are shown are those five, in red where they are clear, and E where it is
set. No two boxes of ports and functions meet, and what stands below a port stands under it. The texts lie inside, if a letter
is 7.3 pixels wide.
"""

import subprocess, sys, xml.etree.ElementTree as xml

SVG = '{http://www.w3.org/2000/svg}'
LETTERS = 'VBRCUE'
RED, LETTER = '#d00000', 7.3


def lines(text, word):
    return [line.split() for line in text.split('\n') if line.split(' ')[0] == word]


def of_class(drawing, name):
    return [group for group in drawing.iter(SVG + 'g') if group.get('class') == name]


def box(group):
    """Left, upper, right and lower end of a group's first rectangle."""
    rect = group.find(SVG + 'rect')
    x, y, width, height = (int(rect.get(name)) for name in ('x', 'y', 'width', 'height'))
    return x, y, x + width, y + height


def words(text):
    return ''.join(text.itertext()).replace('\n', '')


def check_ports(drawing, text):
    vectors = {port: vector for _, port, vector in lines(text, 'egress')}
    drawn, wanted = of_class(drawing, 'port'), lines(text, 'port')
    assert len(drawn) == len(wanted)
    for group, (_, port, first, last, base, limit, controls, owner) in zip(drawn, wanted):
        is_set = [int(controls, 16) >> bit & 1 for bit in range(6)]
        letters = ''.join(letter for letter, here in zip(LETTERS, is_set) if here)
        assert (group.get('data-id'), group.get('data-owner'), group.get('data-controls')) == (port, owner, letters)
        shown = [(span.text, span.get('fill') == RED) for span in group.iter(SVG + 'tspan')]
        assert shown == [(letter, not here) for letter, here in zip(LETTERS, is_set) if here or letter != 'E']
        buses = f'bus {first}' if first == last else f'bus {first}-{last}'
        vector = [f'egress {vectors.get(port, "ffffffff")}'] if is_set[5] else []
        shown = [words(line) for line in group.iter(SVG + 'text')]
        assert shown == [port, letters if is_set[:5] == [1] * 5 else shown[1], f'domain {owner}', *vector, buses, f'{base} -', limit]


def check_others(drawing, text):
    owners = {first: owner for _, _, first, *_, owner in lines(text, 'port')}
    switches = [group.get('data-id') for group in of_class(drawing, 'switch')]
    assert switches == [line[1] for line in lines(text, 'switch')]
    functions = [(group.get('data-id'), group.get('data-owner')) for group in of_class(drawing, 'function')]
    assert functions == [(line[1], owners[line[1][:2]]) for line in lines(text, 'function')]
    shown = [words(line) for line in of_class(drawing, 'legend')[0].iter(SVG + 'text')]
    assert shown[10:] == [f'domain {owner}' for owner in sorted(set(owners.values()), key=int)]


def check_places(drawing, text):
    width, height = int(drawing.get('width')), int(drawing.get('height'))
    assert drawing.get('viewBox') == f'0 0 {width} {height}'
    for rect in drawing.iter(SVG + 'rect'):
        assert int(rect.get('x')) + int(rect.get('width')) <= width and int(rect.get('y')) + int(rect.get('height')) <= height
    for group in drawing.iter(SVG + 'g'):
        for line in group.findall(SVG + 'text'):
            x, y, length = int(line.get('x')), int(line.get('y')), LETTER * len(words(line))
            left = x if group.get('text-anchor') == 'start' or group.get('fill') == RED else x - length / 2
            assert 0 <= left and left + length <= width and 10 <= y <= height - 3, words(line)
    boxes = [box(group) for name in ('port', 'function') for group in of_class(drawing, name)]
    for place, (left, upper, right, lower) in enumerate(boxes):
        assert all(left >= r or l >= right or upper >= b or t >= lower for l, t, r, b in boxes[:place])
    below = {group.get('data-id')[:2]: box(group) for name in ('switch', 'function') for group in of_class(drawing, name)}
    for group, line in zip(of_class(drawing, 'port'), lines(text, 'port')):
        if line[2] in below:
            left, _, right, lower = box(group)
            under = below[line[2]]
            assert under[0] <= left and right <= under[2] and lower <= under[1]


def main():
    program, *layouts = sys.argv[1:]
    for layout in layouts:
        text = open(layout).read()
        printed = subprocess.run([program, 'draw', layout], capture_output=True, check=True).stdout
        drawing = xml.fromstring(printed)
        assert drawing.tag == SVG + 'svg'
        check_ports(drawing, text)
        check_others(drawing, text)
        check_places(drawing, text)
    print(f'drawings: {len(layouts)} checked')


main()
