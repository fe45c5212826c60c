"""A map of two parameters of a sweep, as SVG."""
from html import escape
from itertools import groupby

from .command_line import escaped
from .timelines import some

# With more columns or rows cells are smaller, and only some have a name.
NAMES, LETTER = 40, 7
# Cells that are red are crossed, so that the map can be read without colours.
KINDS = {True: ("good", "#2a9d3a", ""), False: ("bad", "#d9534f", '<path d="M4 4L{0} {0}M4 {0}L{0} 4" stroke="#5c1512"/>')}


def drawn_map(names, cells):
    """Returns the map of two parameters: CELLS has for their values whether all points there have status 0. Adjacent cells of a row
    that are alike are one rectangle."""
    columns, rows = (dict.fromkeys(one[i] for one in cells) for i in (0, 1))
    columns, rows = ({it: at for at, it in enumerate(one)} for one in (columns, reversed(rows)))
    side = 12 if max(len(columns), len(rows)) > NAMES else 28
    left, below = (30 + LETTER * max(map(len, it)) for it in (rows, columns))
    width, height = max(side * len(columns), 420), side * len(rows)
    texts = [(12, -10, 0, "", "green: all expectations are met; red, crossed: some aren't"), (16, height / 2, -90, "middle", names[1]),
             (left + side * len(columns) / 2, height + below, 0, "middle", names[0])]
    texts += [(left - 6, (at + 0.5) * side + 4, 0, "end", it) for it, at in some([*rows.items()], NAMES)]
    texts += [(left + (at + 0.5) * side, height + 14, -60, "end", it) for it, at in some([*columns.items()], NAMES)]
    patterns, paths = "", ""
    for fits, (name, color, cross) in KINDS.items():
        patterns += (f'<pattern id="{name}" x="{left}" width="{side}" height="{side}" patternUnits="userSpaceOnUse">'
                     f'<path d="M0 0H{side}V{side}H0z" fill="{color}" stroke="white"/>{cross.format(side - 4)}</pattern>')
        path = ""
        for row, y in rows.items():
            for is_this, run in groupby(columns, lambda it, row=row: cells.get((it, row)) == fits):
                found = [*run]
                end = f"h{side * len(found)}v{side}h-{side * len(found)}z"
                path += f"M{left + side * columns[found[0]]} {side * y}{end}" if is_this else ""
        paths += f'<path d="{path}" fill="url(#{name})"/>'
    shown = "".join(f'<text transform="translate({x} {y}) rotate({turned})" text-anchor="{anchor or "start"}">{escape(escaped(text))}</text>'
                    for x, y, turned, anchor, text in texts)
    box = f'viewBox="0 -30 {left + width + 10} {height + below + 40}" width="{left + width + 10}" height="{height + below + 40}"'
    return f'<svg xmlns="http://www.w3.org/2000/svg" {box} font-family="sans-serif" font-size="12"><defs>{patterns}</defs>{paths}{shown}</svg>\n'
