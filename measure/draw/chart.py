"""Draws figures as SVG charts.

    python3 measure/draw/chart.py bars TABLE 'TITLE' COLUMN=NAME ..   bars, a group for each row of a table as MEASURED.md has them
    python3 measure/draw/chart.py run STEINER FILE [BUDGET ..]        primal and dual of `solve` by its budget of nodes

The chart goes to the standard output. Columns of a table are numbered from 1, the first of which names the row; of a cell the first number
counts. Where the greatest number is above twenty times the median the scale is logarithmic.
"""
import math
import re
import subprocess
import sys

COLOURS = ['#b3261e', '#e08a00', '#7fb0e0', '#1f5fa8']
WIDE, LEFT, RIGHT, ROW, HEAD = 760, 190, 70, 11, 60


def text(x, y, said, look=''):
    return f'<text x="{x:.1f}" y="{y:.1f}" {look}>{said}</text>'


def svg(wide, high, shapes):
    return (f'<svg xmlns="http://www.w3.org/2000/svg" viewBox="0 0 {wide} {high:.0f}" font-family="sans-serif" font-size="12">\n'
            f'<rect width="{wide}" height="{high:.0f}" fill="#ffffff"/>\n' + '\n'.join(shapes) + '\n</svg>')


def legend(names):
    """The names of the columns, each behind its colour."""
    shapes, x = [], LEFT
    for name, colour in zip(names, COLOURS):
        shapes += [f'<rect x="{x}" y="36" width="11" height="11" fill="{colour}"/>', text(x + 16, 46, name)]
        x += 30 + 7 * len(name)
    return shapes


def scale_of(numbers):
    """From a number to a width, by the numbers that are to be drawn."""
    greatest, known = max(numbers), sorted(n for n in numbers if n > 0)
    room = WIDE - LEFT - RIGHT
    if greatest > 20 * known[len(known) // 2]:
        least = known[0] / 2
        return lambda n: room * math.log(max(n, least) / least) / math.log(greatest / least)
    return lambda n: room * n / greatest


def bars(table, title, columns):
    """A group of bars for each row of the table."""
    rows = [[cell.strip() for cell in line.strip().strip('|').split('|')] for line in open(table, encoding='utf-8') if line.startswith('|')]
    rows = [row for row in rows if any(cell[:1].isdigit() for cell in row[1:])]
    picked = [(int(column), name) for column, name in (word.split('=', 1) for word in columns)]
    cells = [(row[0], [row[column - 1] for column, _ in picked]) for row in rows]
    number = {cell: float(re.search(r'\d+(\.\d+)?', cell).group()) for _, own in cells for cell in own}
    width, shapes, y = scale_of(list(number.values())), [text(LEFT, 22, title, 'font-size="15" font-weight="bold"')], HEAD
    shapes += legend([name for _, name in picked])
    for name, own in cells:
        shapes.append(text(LEFT - 8, y + ROW * len(own) / 2 + 4, name, 'text-anchor="end"'))
        for cell, colour in zip(own, COLOURS):
            shapes.append(f'<rect x="{LEFT}" y="{y}" width="{max(1.0, width(number[cell])):.1f}" height="{ROW - 1}" fill="{colour}"/>')
            shapes.append(text(LEFT + width(number[cell]) + 5, y + ROW - 2, cell, 'font-size="9" fill="#505050"'))
            y += ROW
        y += 7
    return svg(WIDE, y + 5, shapes)


def answer(steiner, name, nodes):
    """Primal and dual of a run with this budget, and whether it was enough."""
    run = subprocess.run([steiner, 'solve', name, '--nodes', str(nodes)], stdout=subprocess.PIPE, check=False)
    told = run.stdout.decode()
    primal, dual = (float(re.search(rf'^{word} (\S+)$', told, re.MULTILINE).group(1)) for word in ('Primal', 'Dual'))
    return primal, dual, run.returncode == 0


def runs(steiner, name, budgets):
    """Budgets, each with its primal and dual, up to the first that is enough."""
    points = []
    for nodes in budgets:
        primal, dual, enough = answer(steiner, name, nodes)
        points.append((nodes, primal, dual))
        if enough:
            break
    return points


def run(steiner, name, budgets):
    """Primal and dual by the budget of nodes, on a logarithmic scale."""
    points = runs(steiner, name, budgets)
    least, most = min(dual for _, _, dual in points), max(primal for _, primal, _ in points)
    high, room = 320, WIDE - 2 * LEFT // 3 - RIGHT
    x = lambda nodes: LEFT // 2 + room * math.log(nodes) / math.log(points[-1][0])
    y = lambda cost: HEAD + (high - HEAD - 60) * (most - cost) / (most - least or 1)
    title = f'{name.rsplit("/", 1)[-1].removesuffix(".stp")}: primal and dual by the budget of nodes'
    shapes = [text(LEFT // 2, 22, title, 'font-size="15" font-weight="bold"')]
    for place, (what, colour) in enumerate((('primal', COLOURS[0]), ('dual', COLOURS[3])), 1):
        corners = ' '.join(f'{x(point[0]):.1f},{y(point[place]):.1f}' for point in points)
        shapes.append(f'<polyline points="{corners}" fill="none" stroke="{colour}" stroke-width="3"/>')
        shapes.append(text(x(points[0][0]) + 8, y(points[0][place]) + (-8 if place == 1 else 18), what, f'fill="{colour}"'))
    for cost in sorted({least, most, points[-1][1]}):
        shapes.append(text(LEFT // 2 - 8, y(cost) + 4, f'{cost:g}', 'text-anchor="end"'))
    for nodes, _, _ in points[::2]:
        shapes.append(text(x(nodes), high - 30, f'{nodes:,}', 'text-anchor="middle"'))
    return svg(WIDE, high, shapes)


def main():
    kind, *words = sys.argv[1:]
    if kind == 'bars':
        print(bars(words[0], words[1], words[2:]))
    else:
        print(run(words[0], words[1], [int(word) for word in words[2:]] or [2 ** power for power in range(21)]))


if __name__ == '__main__':
    main()
