#!/usr/bin/env python3
"""Draws the figures of docs/, from the project's own numbers: python3 docs/figures/make.py, in the project's root.

multipliers.svg: the multiplier of each family of orthogonal.rs at s = 9, from minus its reach to 0, by exact fractions (document 01's recurrence).
day.svg: the junction temperature of the stored day (the first field of its minutes in crates/days/stdout) and its rated temperature (crates/day/stdin).
"""
import struct
from fractions import Fraction as F

WIDTH, HEIGHT, LEFT, TOP, RIGHT, BOTTOM = 760, 320, 56, 24, 16, 40
COLORS = ("#1f6fb4", "#c8553d", "#2f8f5b", "#7a4fa3")


def omega_one(family, s):
    return {"RKL1": F(2, s * (s + 1)), "RKL2": F(4, (s - 1) * (s + 2)), "RKG1": F(4, s * (s + 3)), "RKG2": F(6, (s - 1) * (s + 4))}[family]


def reach(family, s):
    return {"RKL1": F(s * (s + 1)), "RKL2": F((s - 1) * (s + 2), 2), "RKG1": F(s * (s + 3), 2), "RKG2": F((s - 1) * (s + 4), 3)}[family]


def b(family, j):
    if family == "RKL1":
        return F(1)
    if family == "RKL2":
        return F(1, 3) if j < 2 else F((j - 1) * (j + 2), 2 * j * (j + 1))
    if family == "RKG1":
        return F(2, (j + 1) * (j + 2))
    return (F(1), F(1, 3))[j] if j < 2 else F(4 * (j - 1) * (j + 4), 3 * j * (j + 1) * (j + 2) * (j + 3))


def a(family, j):
    return 1 - b(family, j) * (1 if family[2] == "L" else F((j + 1) * (j + 2), 2))


def multiplier(family, s, z):
    """What the attempt with fractions multiplies the state by."""
    omega = omega_one(family, s)
    before, last = F(1), 1 + (omega / 3 if family == "RKL2" else omega) * z
    for j in range(2, s + 1):
        up, down = (F(2 * j - 1, j), F(j - 1, j)) if family[2] == "L" else (F(2 * j + 1, j), F(j + 1, j))
        mu, nu = up * b(family, j) / b(family, j - 1), -down * b(family, j) / b(family, j - 2)
        tilde = omega * mu
        before, last = last, mu * last + nu * before + (1 - mu - nu) + z * (tilde * last - a(family, j - 1) * tilde)
    return last


def drawing(title, x_range, y_range, x_ticks, y_ticks, curves, lines=()):
    """Curves (name, points) and horizontal lines (name, height), with ticks (value, label)."""
    def x(v):
        return LEFT + (v - x_range[0]) / (x_range[1] - x_range[0]) * (WIDTH - LEFT - RIGHT)

    def y(v):
        return HEIGHT - BOTTOM - (v - y_range[0]) / (y_range[1] - y_range[0]) * (HEIGHT - TOP - BOTTOM)

    out = [f'<svg xmlns="http://www.w3.org/2000/svg" viewBox="0 0 {WIDTH} {HEIGHT}" font-family="sans-serif" font-size="12">',
           f'<title>{title}</title>', f'<rect width="{WIDTH}" height="{HEIGHT}" fill="white"/>']
    for value, label in x_ticks:
        out.append(f'<text x="{x(value):.1f}" y="{HEIGHT - BOTTOM + 18}" text-anchor="middle">{label}</text>')
    for value, label in y_ticks:
        out.append(f'<path d="M{LEFT} {y(value):.1f}H{WIDTH - RIGHT}" stroke="#ddd"/>')
        out.append(f'<text x="{LEFT - 8}" y="{y(value) + 4:.1f}" text-anchor="end">{label}</text>')
    for name, height in lines:
        out.append(f'<path d="M{LEFT} {y(height):.1f}H{WIDTH - RIGHT}" stroke="#c8553d" stroke-dasharray="5 4"/>')
        out.append(f'<text x="{LEFT + 6}" y="{y(height) - 5:.1f}" fill="#c8553d">{name}</text>')
    for k, (name, points) in enumerate(curves):
        path = "".join(f'{"ML"[i > 0]}{x(p):.1f} {y(q):.1f}' for i, (p, q) in enumerate(points))
        out.append(f'<path d="{path}" fill="none" stroke="{COLORS[k]}" stroke-width="1.5"/>')
        out.append(f'<text x="{WIDTH - RIGHT - 8}" y="{TOP + 6 + 15 * k}" text-anchor="end" fill="{COLORS[k]}">{name}</text>')
    return "\n".join(out + ["</svg>"]) + "\n"


def multipliers(s=9, steps=240):
    curves = []
    for family in ("RKL1", "RKL2", "RKG1", "RKG2"):
        end = -reach(family, s)
        assert end == -2 / omega_one(family, s)
        points = [(end * i / steps, multiplier(family, s, end * i / steps)) for i in range(steps + 1)]
        assert all(-1 <= m <= 1 for _, m in points)
        curves.append((f"{family}: from z = {end}", [(float(z), float(m)) for z, m in points]))
    least = min(z for _, points in curves for z, _ in points)
    return drawing(f"Multipliers at s = {s}, from minus the reach to 0", (least, 0), (-1.05, 1.05),
                   [(z, str(z)) for z in range(0, int(least) - 1, -20)], [(v, str(v)) for v in (-1, -0.5, 0, 0.5, 1)], curves)


def double(word):
    return struct.unpack(">d", bytes.fromhex(word))[0]


def day(last=1437):
    """The minutes before the huge reading."""
    rated = double(open("crates/day/stdin").readline().split()[7])
    lines = open("crates/days/stdout").read().splitlines()
    first = lines.index("rkl2, minutes:") + 1
    temperatures = [double(line.split()[0]) for line in lines[first:first + last]]
    top = 5 * (int(max(temperatures + [rated])) // 5 + 1)
    return drawing("Junction temperature over the stored day", (0, 1440), (20, top), [(60 * h, f"{h}:00") for h in range(0, 25, 4)],
                   [(t, f"{t} °C") for t in range(20, top + 1, 5)], [("junction", list(enumerate(temperatures, 1)))], [(f"rated, {rated:g} °C", rated)])


if __name__ == "__main__":
    for name, draw in (("multipliers", multipliers), ("day", day)):
        drawn = draw()
        with open(f"docs/figures/{name}.svg", "w") as file:
            file.write(drawn)
