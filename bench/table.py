#!/usr/bin/env python3
"""Reads the lines that table.c prints, prints them as a table of Markdown, and draws their ratios to OpenSSL as a picture (SVG).

usage: table.py PICTURE < LINES
"""
import math
import sys

# What each was to reach, as a part of OpenSSL's time.
WANTED = {
    'decode a usual CA (33 blocks)': 0.014,
    'encode a usual CA': 0.05,
    'decode an end entity': 0.011,
    'decode a trust anchor': 0.011,
    'decode 10,000 address and 5,000 AS blocks': 0.06,
    'encode 10,000 address and 5,000 AS blocks': 0.038,
    'a usual path of four, without signatures': 15 / 986,
    'a large path of four, without signatures': 1.2 / 27,
    'an entry of a list of 100,000': 0.065,
    'first look-up in 100,000 shuffled entries': 0.25,
    'each further look-up there': 0.06,
}
LEFT, WIDTH, ROW, TOP = 330, 420, 26, 34
LEAST, MOST = 0.005, 1.0


def time_text(nanoseconds):
    for limit, unit in ((1e3, 'ns'), (1e6, 'µs'), (1e9, 'ms')):
        if nanoseconds < limit:
            return f'{nanoseconds / (limit / 1e3):.3g} {unit}'
    return f'{nanoseconds / 1e9:.3g} s'


def place(ratio):
    part = math.log(ratio / LEAST) / math.log(MOST / LEAST)
    return LEFT + WIDTH * min(max(part, 0), 1)


def text(x, y, words, anchor='start', size=12):
    words = words.replace('&', '&amp;').replace('<', '&lt;')
    return f'<text x="{x:.0f}" y="{y:.0f}" font-size="{size}" text-anchor="{anchor}">{words}</text>'


def row(at, name, ratio):
    """A bar from the left to the ratio, and a mark at what was wanted."""
    y = TOP + at * ROW
    yield text(LEFT - 8, y + 15, name, 'end')
    yield f'<rect x="{LEFT}" y="{y + 4}" width="{place(ratio) - LEFT:.0f}" height="14" fill="#4a78b5"/>'
    yield text(place(ratio) + 6, y + 15, f'{ratio:.2g}', size=11)
    if name in WANTED:
        x = place(WANTED[name])
        yield f'<line x1="{x:.0f}" y1="{y + 1}" x2="{x:.0f}" y2="{y + 21}" stroke="#c0392b" stroke-width="2"/>'


def axis(height):
    for ratio in (0.005, 0.01, 0.02, 0.05, 0.1, 0.2, 0.5, 1):
        x = place(ratio)
        yield f'<line x1="{x:.0f}" y1="{TOP}" x2="{x:.0f}" y2="{height - 40}" stroke="#ddd"/>'
        yield text(x, height - 26, f'{ratio:g}', 'middle', 11)
    yield text(LEFT + WIDTH / 2, height - 8, 'time as a part of OpenSSL\'s (logarithmic); red: wanted', 'middle')


def picture(rows):
    height = TOP + len(rows) * ROW + 44
    lines = [f'<svg xmlns="http://www.w3.org/2000/svg" width="{LEFT + WIDTH + 60}" height="{height}" font-family="sans-serif">',
             f'<rect width="{LEFT + WIDTH + 60}" height="{height}" fill="white"/>',
             text(12, 20, 'Gonxebhula beside OpenSSL 3.0', size=14), *axis(height)]
    for at, (name, ours, theirs, *_) in enumerate(rows):
        lines += row(at, name, ours / theirs)
    return '\n'.join([*lines, '</svg>', ''])


def main():
    rows = []
    for line in sys.stdin:
        name, *numbers = line.rstrip('\n').split('\t')
        rows.append((name, *map(float, numbers)))
    print('| Operation | time | OpenSSL | part of it | wanted | memory | OpenSSL |')
    print('|---|---|---|---|---|---|---|')
    for name, ours, theirs, memory, their_memory in rows:
        wanted = f'{WANTED[name]:.2g}' if name in WANTED else ''
        print(f'| {name} | {time_text(ours)} | {time_text(theirs)} | {ours / theirs:.2g} | {wanted} | {memory:,.0f} | {their_memory:,.0f} |')
    with open(sys.argv[1], 'w', encoding='utf-8') as file:
        file.write(picture(rows))


if __name__ == '__main__':
    main()
