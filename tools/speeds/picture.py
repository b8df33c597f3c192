"""A picture of speeds: for each call a bar from the better peer's speed to the port's, and marks at the peers' speeds."""
import math
from xml.sax.saxutils import escape

ROW, LABELS, PANEL, RATIO, TOP = 22, 190, 300, 84, 96
FASTER, SLOWER, PEER = '#2e8b57', '#d2691e', '#444444'
# the axis goes at most from one over this power of two to it
WIDEST = 4


def shown(ratio):
    """A ratio with enough digits to tell it from none."""
    return f'{ratio:.2f}' if ratio >= 0.1 else f'{ratio:.1g}'


def text(x, y, words, anchor='start', **more):
    style = ''.join(f' {name.replace("_", "-")}="{value}"' for name, value in more.items())
    return f'<text x="{x:.1f}" y="{y:.1f}" text-anchor="{anchor}"{style}>{escape(words)}</text>'


def crate_mark(x, y):
    return f'<circle cx="{x:.1f}" cy="{y:.1f}" r="4" fill="white" stroke="{PEER}" stroke-width="1.5"/>'


def cpython_mark(x, y):
    return f'<path d="M{x:.1f} {y - 5:.1f}l5 5l-5 5l-5 -5z" fill="{PEER}"/>'


def legend(x, y):
    parts = [f'<rect x="{x}" y="{y - 9}" width="22" height="10" fill="{FASTER}"/>', text(x + 28, y, 'port, faster than both'),
             f'<rect x="{x + 190}" y="{y - 9}" width="22" height="10" fill="{SLOWER}"/>', text(x + 218, y, 'port, slower than the better'),
             crate_mark(x + 415, y - 4), text(x + 425, y, 'Rust crate'), cpython_mark(x + 515, y - 4), text(x + 525, y, 'CPython')]
    return parts


def panel(left, heading, rows, low, high):
    """One panel: speeds as multiples of the better peer's, on a logarithmic axis; what is off it stands at its end."""
    def at(ratio):
        return left + (min(max(math.log2(ratio), low), high) - low) / (high - low) * PANEL

    bottom = TOP + ROW * len(rows)
    parts = [text(left + PANEL / 2, TOP - 30, heading, 'middle', font_weight='bold')]
    for power in range(low, high + 1):
        x = at(2 ** power)
        name = f'{2 ** power}' if power >= 0 else f'1/{2 ** -power}'
        width = 1.5 if power == 0 else 0.5
        parts += [f'<path d="M{x:.1f} {TOP - 6}V{bottom}" stroke="#999999" stroke-width="{width}"/>',
                  text(x, TOP - 12, f'{name}×', 'middle', fill='#666666', font_size='11')]
    for i, (_, port, crate, cpython) in enumerate(rows):
        y, better = TOP + ROW * (i + 0.5), max(crate, cpython)
        ratio = port / better
        colour = FASTER if ratio >= 1 else SLOWER
        a, b = sorted([at(1), at(ratio)])
        parts += [f'<rect x="{a:.1f}" y="{y - 6:.1f}" width="{b - a:.1f}" height="12" fill="{colour}"/>',
                  crate_mark(at(crate / better), y), cpython_mark(at(cpython / better), y),
                  text(left + PANEL + 58, y + 4, f'{shown(ratio)}×', 'end', fill=colour, font_weight='bold')]
    return parts


def picture(title, panels):
    """An SVG with a panel for each heading; its rows are a label and the speeds of the port, the crate and CPython."""
    ratios = [speed / max(crate, cpython) for _, rows in panels for _, *speeds in rows
              for crate, cpython in [speeds[1:]] for speed in speeds]
    low = max(-WIDEST, min(-1, math.floor(math.log2(min(ratios)))))
    high = min(WIDEST, max(1, math.ceil(math.log2(max(ratios)))))
    width = LABELS + len(panels) * (PANEL + RATIO)
    height = TOP + ROW * len(panels[0][1]) + 16
    parts = [text(16, 24, title, font_size='16', font_weight='bold')] + legend(16, 46)
    for i, (label, *_) in enumerate(panels[0][1]):
        y = TOP + ROW * i
        if i % 2 == 0:
            parts.append(f'<rect x="8" y="{y}" width="{width - 16}" height="{ROW}" fill="#f3f3f3"/>')
        parts.append(text(16, y + 15, label, font_family='monospace'))
    for i, (heading, rows) in enumerate(panels):
        parts += panel(LABELS + i * (PANEL + RATIO), heading, rows, low, high)
    head = (f'<svg xmlns="http://www.w3.org/2000/svg" viewBox="0 0 {width} {height}" width="{width}" height="{height}" '
            'font-family="sans-serif" font-size="13">')
    return '\n'.join([head, f'<rect width="{width}" height="{height}" fill="white"/>', *parts, '</svg>']) + '\n'
