"""Draws the plots of the benchmark: plot.py results.json about.txt plot.svg strips.svg

about.txt has a line for each thing that a reader has to know of the measurement: the day, the processor, the versions.
"""
import json
import sys
from math import ceil, floor, log10

PANEL = 420
WIDTH, HEIGHT, STRIPS_HEIGHT = 1120, 1040 + PANEL, 500
INK, FAINT = "#222222", "#dddddd"
WORKS = ("w1: a mark record of 46 bytes, a8 A20 Su Iu c6 b12 H8.  w2: 4,096 binary digits packed by b4096;"
         " 4,096 bytes read by b*.",
         "w3: 2,000 integers of 2 bytes, s2000.  w4: a string of 4,096 bytes, a4096.  w5: 64 fields of c, a byte each."
         "  b4096: 512 bytes read.",
         "q500: doubles; r1000: singles, which the hardware converts for plain C.  a32768, s16000: the longest records;"
         "  b262144: 32,768 digits packed, 32,768 bytes read by b*.")
COLOURS = {"ours": "#009e73", "plain": "#56b4e9", "twin": "#e69f00", "tcl": "#0072b2", "perl": "#cc79a7",
           "python": "#8c8c8c", "steps": INK}
DASHES = {"pack": "", "read": "6 4", "bound": "2 3"}


class Canvas:
    def __init__(self, width, height):
        self.parts = [f'<svg xmlns="http://www.w3.org/2000/svg" viewBox="0 0 {width} {height}" width="{width}"'
                      f' height="{height}" font-family="sans-serif" font-size="13">',
                      f'<rect width="{width}" height="{height}" fill="white"/>']

    def text(self, x, y, words, anchor="start", size=13, weight="normal", turned=False):
        words = words.replace("&", "&amp;").replace("<", "&lt;")
        turn = f' transform="rotate(-90 {x:.1f} {y:.1f})"' if turned else ""
        self.parts.append(f'<text x="{x:.1f}" y="{y:.1f}" text-anchor="{anchor}" font-size="{size}"'
                          f' font-weight="{weight}" fill="{INK}"{turn}>{words}</text>')

    def lines(self, x, y, lines):
        for i, words in enumerate(lines):
            self.text(x, y + 17 * i, words, size=12)

    def line(self, x1, y1, x2, y2, colour=INK, width=1.0, dash=""):
        self.parts.append(f'<line x1="{x1:.1f}" y1="{y1:.1f}" x2="{x2:.1f}" y2="{y2:.1f}" stroke="{colour}"'
                          f' stroke-width="{width}" stroke-dasharray="{dash}"/>')

    def bar(self, x, y, width, height, colour, opacity=1.0):
        self.parts.append(f'<rect x="{x:.1f}" y="{y:.1f}" width="{width:.1f}" height="{height:.1f}"'
                          f' fill="{colour}" fill-opacity="{opacity}"/>')

    def path(self, points, colour, dash=""):
        where = " ".join(f"{x:.1f},{y:.1f}" for x, y in points)
        self.parts.append(f'<polyline points="{where}" fill="none" stroke="{colour}" stroke-width="2"'
                          f' stroke-dasharray="{dash}"/>')

    def save(self, path):
        with open(path, "w", encoding="utf-8") as file:
            file.write("\n".join(self.parts + ["</svg>"]) + "\n")


class LogScale:
    """Maps numbers to places, by powers of ten."""

    def __init__(self, low, high, start, end):
        self.low, self.high = log10(low), log10(high)
        self.start, self.end = start, end

    def at(self, value):
        part = (log10(value) - self.low) / (self.high - self.low)
        return self.start + part * (self.end - self.start)

    def ticks(self):
        return [10.0 ** k for k in range(ceil(self.low - 1e-9), floor(self.high + 1e-9) + 1)]


def decades(values):
    values = list(values)
    return 10.0 ** floor(log10(min(values))), 10.0 ** ceil(log10(max(values)))


def short(value):
    return f"{value:g}" if value < 1000 else f"{value:,.0f}"


def times(ratio):
    return f"{ratio:.0f}" if ratio >= 99.5 else f"{ratio:.3g}"


def colour(peer):
    return COLOURS.get(peer, "#d55e00")


def draw_legend(canvas, peers, y):
    x = 70
    for peer, name in peers:
        canvas.bar(x, y - 11, 14, 14, colour(peer))
        canvas.text(x + 20, y, name)
        x += 60 + 8 * len(name)


def draw_ratios(canvas, peers, ratios, left, top, width, height):
    others = [peer for peer, _ in peers if peer != "ours"]
    shown = [row[peer] for row in ratios for peer in others if row[peer]]
    low, high = decades(shown + [goal for row in ratios for goal in row["goals"].values()] + [0.5, 10])
    scale = LogScale(low, high, top + height, top)
    canvas.text(left, top - 14, "Time of each peer, where ours is 1 (higher: the peer is slower; black tick: the goal that"
                " we set ourselves)", size=15, weight="bold")
    for tick in scale.ticks():
        canvas.line(left, scale.at(tick), left + width, scale.at(tick), INK if tick == 1 else FAINT)
        canvas.text(left - 8, scale.at(tick) + 4, short(tick), "end")
    step = width / len(ratios)
    thick = step * 0.8 / max(1, len(others))
    for i, row in enumerate(ratios):
        x = left + i * step + step * 0.1
        canvas.text(left + (i + 0.5) * step, top + height + 18, row["name"], "middle")
        for k, peer in enumerate(others):
            if row[peer]:
                y, one = scale.at(row[peer]), scale.at(1)
                canvas.bar(x + k * thick, min(y, one), thick * 0.92, max(1, abs(one - y)), colour(peer))
                highest = min(y, one, scale.at(row["goals"].get(peer, row[peer])))
                canvas.text(x + (k + 0.46) * thick + 4, highest - 5, times(row[peer]), size=11, turned=True)
            if row[peer] and peer in row["goals"]:
                goal = scale.at(row["goals"][peer])
                canvas.line(x + k * thick - 1, goal, x + (k + 0.92) * thick + 1, goal, INK, 2.5)


def draw_growth(canvas, title, lines, left, top, width, height, unit="ns a call; solid: pack, dashed: read"):
    places = [x for points in lines.values() for x, _ in points]
    across = LogScale(min(places), max(places), left, left + width)
    up = LogScale(*decades(y for points in lines.values() for _, y in points), top + height, top)
    canvas.text(left, top - 30, title, size=15, weight="bold")
    canvas.text(left, top - 12, unit, size=12)
    for tick in up.ticks():
        canvas.line(left, up.at(tick), left + width, up.at(tick), FAINT)
        canvas.text(left - 6, up.at(tick) + 4, short(tick), "end", 12)
    for x in sorted(set(places)):
        canvas.line(across.at(x), top + height, across.at(x), top + height + 5)
        canvas.text(across.at(x), top + height + 20, short(x), "middle", 12)
    for name, points in lines.items():
        peer, call = name.split()
        canvas.path([(across.at(x), up.at(y)) for x, y in points], colour(peer), DASHES[call])


def draw_crowd(canvas, names, crowd, left, top, width, height):
    largest = max(max(packing, reading) for _, _, _, packing, reading in crowd)
    canvas.text(left - 95, top - 30, "Candidates' records, millions a second", size=15, weight="bold")
    canvas.text(left - 95, top - 12, "full: packed, pale: read; small: how many records", size=12)
    step = height / len(crowd)
    for i, (peer, threads, records, packing, reading) in enumerate(crowd):
        y = top + i * step
        canvas.text(left - 8, y + step * 0.45, f"{names[peer]}, {threads} thr.", "end", 12)
        canvas.text(left - 8, y + step * 0.45 + 12, f"{records:,}", "end", 10)
        for k, rate in enumerate((packing, reading)):
            length = rate / largest * (width - 40)
            canvas.bar(left, y + step * (0.1 + 0.4 * k), length, step * 0.36, colour(peer), 1.0 if k == 0 else 0.5)
            canvas.text(left + length + 4, y + step * (0.1 + 0.4 * k) + step * 0.18 + 4, f"{rate / 1e6:.2f}", size=11)
    canvas.line(left, top, left, top + height)


def draw_main(results, about):
    canvas = Canvas(WIDTH, HEIGHT)
    draw_legend(canvas, results["peers"], 28)
    half = (len(results["ratios"]) + 1) // 2
    for k, rows in enumerate((results["ratios"][:half], results["ratios"][half:])):
        draw_ratios(canvas, results["peers"], rows, 70, 100 + k * PANEL, 1020, 330)
    canvas.lines(70, 478 + PANEL, WORKS)
    draw_growth(canvas, "Growth by fields of c", results["growth"]["f"], 70, 610 + PANEL, 270, 300)
    draw_growth(canvas, "Growth by bytes of an s field", results["growth"]["s"], 430, 610 + PANEL, 270, 300)
    draw_crowd(canvas, dict(results["peers"]), results["crowd"], 850, 610 + PANEL, 250, 300)
    canvas.lines(70, 980 + PANEL, about)
    return canvas


def draw_strips(results, about):
    canvas = Canvas(WIDTH, STRIPS_HEIGHT)
    times = results["growth"]["b"]
    own = {name: points for name, points in times.items() if name.startswith("ours ")}
    draw_legend(canvas, results["peers"] + [["steps", "step bound, n/8 + 7"]], 28)
    draw_growth(canvas, "One field of b, by its n binary digits", times, 70, 100, 450, 320)
    draw_growth(canvas, "Our time, and the steps that are proved to be enough",
                {**own, "steps bound": results["bound"]}, 620, 100, 450, 320,
                "ns a call; solid: pack, dashed: read; dotted: steps at most")
    canvas.lines(70, 470, about[:1])
    return canvas


def main():
    kept, known, target, strips = sys.argv[1:]
    with open(kept, encoding="utf-8") as file:
        results = json.load(file)
    with open(known, encoding="utf-8") as file:
        about = file.read().splitlines()
    draw_main(results, about).save(target)
    draw_strips(results, about).save(strips)


main()
