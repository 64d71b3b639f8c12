"""The plots of bench/run, as SVG."""
import math
from html import escape

COLOURS = ("#1b6ca8", "#c8553d", "#3a7d44", "#7a4988", "#b8860b")
STYLE = ("<style>text{font:12px "
         "sans-serif;fill:#222}.axis{stroke:#888;stroke-width:1}.grid{stroke:#ddd;stroke-width:1}</style>")


def page(width: int, height: int, parts: list[str]) -> str:
    """Returns a picture of some parts on white."""
    head = f'<svg xmlns="http://www.w3.org/2000/svg" viewBox="0 0 {width} {height}" width="{width}" height="{height}">'
    return "\n".join([head, STYLE, f'<rect width="{width}" height="{height}" fill="#fff"/>', *parts, "</svg>"]) + "\n"


def draw_ratios(path: str, rows: list[tuple[str, float]]) -> None:
    """Writes a bar for each row: the instructions of the proved program by those of the plain one, and a line at 1."""
    left, unit, step = 190, 180, 22
    most = max(2.0, max(ratio for _, ratio in rows))
    parts = []
    for place, (name, ratio) in enumerate(rows):
        y = 34 + step * place
        colour = "#3a7d44" if ratio <= 1 else "#1b6ca8"
        parts.append(f'<text x="{left - 8}" y="{y + 12}" text-anchor="end">{escape(name)}</text>')
        parts.append(f'<rect x="{left}" y="{y}" width="{ratio * unit:.0f}" height="15" fill="{colour}"/>')
        parts.append(f'<text x="{left + ratio * unit + 6:.0f}" y="{y + 12}">{ratio:.2f}</text>')
    bottom = 34 + step * len(rows)
    parts.append(f'<line class="axis" x1="{left + unit}" y1="26" x2="{left + unit}" y2="{bottom}"/>')
    parts.append(f'<text x="{left + unit}" y="18" text-anchor="middle">as many instructions as plain Rust</text>')
    with open(path, "w", encoding="utf-8") as out:
        out.write(page(int(left + most * unit + 60), bottom + 10, parts))


def draw_growth(path: str, lines: list[tuple[str, list[tuple[int, float]]]]) -> None:
    """Writes a line for each text and program through its two sizes, on logarithmic axes.

    A text twice as long and as dear has the slope 1.
    """
    points = [point for _, found in lines for point in found]
    low_x, high_x = (math.floor(math.log10(min(x for x, _ in points))),
                     math.ceil(math.log10(max(x for x, _ in points))))
    low_y, high_y = (math.floor(math.log10(min(y for _, y in points))),
                     math.ceil(math.log10(max(y for _, y in points))))
    left, top, unit = 70, 20, 220
    across, down = (high_x - low_x) * unit, (high_y - low_y) * unit

    def at(x: float, y: float) -> tuple[float, float]:
        return left + (math.log10(x) - low_x) * unit, top + (high_y - math.log10(y)) * unit

    parts = []
    for power in range(low_x, high_x + 1):
        x, _ = at(10 ** power, 10 ** low_y)
        parts.append(f'<line class="grid" x1="{x}" y1="{top}" x2="{x}" y2="{top + down}"/>')
        parts.append(f'<text x="{x}" y="{top + down + 18}" text-anchor="middle">{10 ** power:,} bytes</text>')
    for power in range(low_y, high_y + 1):
        _, y = at(10 ** low_x, 10 ** power)
        parts.append(f'<line class="grid" x1="{left}" y1="{y}" x2="{left + across}" y2="{y}"/>')
        parts.append(f'<text x="{left - 6}" y="{y + 4}" text-anchor="end">{10 ** power:,} M</text>')
    for place, (name, found) in enumerate(lines):
        colour = COLOURS[place // 2 % len(COLOURS)]
        (x1, y1), (x2, y2) = (at(*point) for point in found)
        dash = ' stroke-dasharray="5 3"' if place % 2 else ""
        parts.append(f'<line x1="{x1:.1f}" y1="{y1:.1f}" x2="{x2:.1f}" y2="{y2:.1f}" stroke="{colour}" '
                     f'stroke-width="2"{dash}/>')
        parts += [f'<circle cx="{x:.1f}" cy="{y:.1f}" r="3" fill="{colour}"/>' for x, y in ((x1, y1), (x2, y2))]
        y = top + 14 + 17 * place
        parts.append(f'<line x1="{left + across + 20}" y1="{y - 4}" x2="{left + across + 48}" y2="{y - 4}" '
                     f'stroke="{colour}" stroke-width="2"{dash}/>')
        parts.append(f'<text x="{left + across + 54}" y="{y}">{escape(name)}</text>')
    with open(path, "w", encoding="utf-8") as out:
        out.write(page(int(left + across + 270), int(max(top + down + 34, top + 20 + 17 * len(lines))), parts))
