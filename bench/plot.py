"""The plot of `bench/c`: a panel for each workload, and in it a line for each kind of lock, over the threads."""
import math
from xml.sax.saxutils import escape

COLORS = ["#0b6e4f", "#d1495b", "#30638e", "#edae49", "#7a5195", "#8d99ae"]
ACROSS, WIDTH, HEIGHT, LEFT, TOP = 4, 250, 170, 46, 34


def text(x, y, words, more=""):
    return f'<text x="{x:.1f}" y="{y:.1f}" {more}>{escape(words)}</text>'


def top_of(rates):
    """The least of 1, 2 and 5 times a power of ten that isn't below any of these."""
    most = max(max(row) for row in rates)
    power = 10 ** math.floor(math.log10(most))
    return next(step * power for step in (1, 2, 5, 10) if most <= step * power)


def panel(left, top, name, rates, threads):
    """One workload: both axes, and a line for each column."""
    wide, high, most = WIDTH - LEFT - 14, HEIGHT - TOP - 24, top_of(rates)
    base = top + TOP + high
    places = [left + LEFT + wide * i / max(1, len(threads) - 1) for i in range(len(threads))]
    lines = [text(left + LEFT, top + TOP - 12, name, 'font-weight="bold"'),
             f'<path d="M{left + LEFT} {top + TOP}V{base}H{left + LEFT + wide}" fill="none" stroke="#555"/>']
    for part in (0, 0.5, 1):
        lines.append(text(left + LEFT - 6, base - part * high + 4, f"{part * most:g}", 'text-anchor="end"'))
    for place, count in zip(places, threads):
        lines.append(text(place, base + 14, str(count), 'text-anchor="middle"'))
    for column, color in zip(zip(*rates), COLORS):
        points = " ".join(f"{x:.1f},{base - rate / most * high:.1f}" for x, rate in zip(places, column))
        lines.append(f'<polyline points="{points}" fill="none" stroke="{color}" stroke-width="2"/>')
    return lines


def drawn(figures, threads, columns):
    """The plot of these figures: of each workload its name, and for each number of threads a rate for each column."""
    rows = math.ceil(len(figures) / ACROSS)
    wide, high = ACROSS * WIDTH, rows * HEIGHT + 46
    lines = [f'<svg xmlns="http://www.w3.org/2000/svg" viewBox="0 0 {wide} {high}" font-family="sans-serif" '
             'font-size="11">', f'<rect width="{wide}" height="{high}" fill="white"/>']
    for number, (name, rates) in enumerate(figures):
        lines += panel(number % ACROSS * WIDTH, number // ACROSS * HEIGHT, name, rates, threads)
    for number, (column, color) in enumerate(zip(columns, COLORS)):
        x = 20 + number * (wide - 40) / len(columns)
        lines.append(f'<path d="M{x:.1f} {high - 16}h22" stroke="{color}" stroke-width="3"/>')
        lines.append(text(x + 28, high - 12, column))
    lines.append(text(20, high - 32, "operations a microsecond, all threads together, over the number of threads"))
    return "\n".join([*lines, "</svg>", ""])
