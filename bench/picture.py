"""Reads lines `nodes links microseconds` and draws how opening grows: a line for each number of links."""
import sys

rows = [tuple(map(float, line.split())) for line in sys.stdin]
nodes = sorted({r[0] for r in rows})
links = sorted({r[1] for r in rows})
time = {(r[0], r[1]): r[2] for r in rows}
top = max(time.values()) * 1.05
width, height, left, low = 640, 400, 70, 350


def x(n):
    return left + (n - nodes[0]) / (nodes[-1] - nodes[0]) * (width - left - 110)


def y(t):
    return low - t / top * (low - 30)


font = 'font-family="sans-serif" font-size="12"'
out = [f'<svg xmlns="http://www.w3.org/2000/svg" width="{width}" height="{height}" {font}>']
out.append(f'<rect width="{width}" height="{height}" fill="white"/>')
step = max(1, round(top / 6 / 10)) * 10
for i in range(int(top // step) + 1):
    t = step * i
    out.append(f'<line x1="{left}" x2="{width - 110}" y1="{y(t):.1f}" y2="{y(t):.1f}" stroke="#ddd"/>')
    out.append(f'<text x="{left - 8}" y="{y(t) + 4:.1f}" text-anchor="end">{t:.0f}</text>')
for n in nodes:
    out.append(f'<text x="{x(n):.1f}" y="{low + 18}" text-anchor="middle">{n:.0f}</text>')
for i, m in enumerate(links):
    shade = 200 - int(200 * i / (len(links) - 1))
    points = " ".join(f"{x(n):.1f},{y(time[n, m]):.1f}" for n in nodes)
    colour = f"rgb({shade},{shade // 2 + 40},200)"
    out.append(f'<polyline points="{points}" fill="none" stroke="{colour}" stroke-width="2"/>')
# the names of the lines, kept apart from each other
below = float("inf")
for m in sorted(links, key=lambda m: time[nodes[-1], m]):
    below = min(y(time[nodes[-1], m]) + 4, below - 13)
    out.append(f'<text x="{width - 104}" y="{below:.1f}">{m:.0f} links</text>')
out.append(f'<text x="{(left + width - 110) / 2}" y="{low + 40}" text-anchor="middle">nodes</text>')
out.append(f'<text x="16" y="20">opening a file, microseconds</text></svg>')
print("\n".join(out))
