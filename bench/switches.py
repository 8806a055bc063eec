"""The largest tree of switches: the lines of its layout."""

# A switch is the list of what its eight ports lead to: a switch, or None for a function. Here are 8 switches
# on three levels, 64 ports and 57 functions.
LOW = [None] * 8
MIDDLE = [LOW] + [None] * 7
ROOT = [MIDDLE, MIDDLE, MIDDLE, LOW] + [None] * 4


def switch_lines(switch, above, bus, base, owners, lines, functions, most=57):
    """Adds the lines of a switch and of all that is below it. Buses and windows of 1 MB are dealt out in order, and no
    more than `most` functions get a line. It answers the first bus and the first address that are free."""
    lines.append(f'switch {bus:02x}:00.0 {above}')
    inner, bus = bus + 1, bus + 2
    for device, (below, owner) in enumerate(zip(switch, owners)):
        port, place, first, low = f'{inner:02x}:{device:02x}.0', len(lines), bus, base
        if below is None:
            if len(functions) < most:
                functions.append((bus << 8, owner, base))
                lines.append(f'function {bus:02x}:00.0 {base:08x}')
            bus, base = bus + 1, base + 0x100000
        else:
            bus, base = switch_lines(below, port, bus, base, [owner] * 8, lines, functions, most)
        lines.insert(place, f'port {port} {first:02x} {bus - 1:02x} {low:08x} {base - 1:08x} 1f {owner}')
    return bus, base


def text(bdf):
    """An ID of device 0, function 0."""
    return f'{bdf >> 8:02x}:00.0'
