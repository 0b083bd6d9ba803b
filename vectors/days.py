#!/usr/bin/env python3
"""Writes the stored days and the texts that are none, into the crates that run them (crates/days/args names each).

A day is half a sine of sunlight with clouds, drawn from a fixed sequence, so that every run writes the same bytes. Among the readings stand odd
ones, as a meter gives them: a NaN, infinities, a negative one, a subnormal one, and a huge one near the end. One day has no sun and one NaN.
Run it in the project's root: python3 vectors/days.py
"""
import math
import os
import struct

MINUTES = 1440


def bits(x):
    return "%016X" % struct.unpack(">Q", struct.pack(">d", x))[0]


def draws(seed):
    """Numbers from 0 to 1, by Knuth's multiplier of 64 bits."""
    while True:
        seed = (seed * 6364136223846793005 + 1442695040888963407) % 2**64
        yield (seed >> 11) / 2**53


def readings(seed, peak, rise, set_):
    """Watts, a minute each: half a sine from sunrise to sunset, dimmed by clouds that come and go."""
    draw = draws(seed)
    cloud = 0.0
    for minute in range(MINUTES):
        cloud += 0.1 * (next(draw) - 0.5 - 0.3 * cloud)
        sun = 0.0
        if rise < minute < set_:
            sun = math.sin(math.pi * (minute - rise) / (set_ - rise))
        yield float(round(peak * sun * (1.0 - min(1.0, 2.0 * abs(cloud)))))


def day(family, n, constants, watts):
    line = " ".join([str(family), str(n)] + [bits(x) for x in constants])
    return "\n".join([line] + [bits(x) for x in watts]) + "\n"


def with_odd(watts, odd):
    watts = list(watts)
    for minute, watt in odd.items():
        watts[minute] = watt
    return watts


# initial, ambient, conduct, cool, heat, rated
RKL2 = day(3, 16, (25.0, 25.0, 0.5, 0.002, 2e-5, 45.0), with_odd(
    readings(1, 3000.0, 360, 1200),
    {30: 5e-324, 100: -3.5, 431: math.nan, 745: math.inf, 1437: 1.7e308}))
RKC = day(1, 24, (18.0, 31.5, 1.25, 0.004, 4.5e-5, 60.0), with_odd(
    readings(2, 3400.0, 330, 1260),
    {5: -0.0, 200: -40.0, 600: math.nan, 601: math.nan, 900: -math.inf}))
# A sink that cools down in the dark. Started anew after the NaN, the engine took it for slow, and its stiff modes grew to 7.98 hours above.
NAN_AT_120 = day(1, 16, (25.0, 20.0, 3.0, 0.004, 4.5e-5, 60.0), with_odd([0.0] * MINUTES, {120: math.nan}))
# Bad readings where nothing is held yet, in a row, after a minute that the engine refuses (its reading is finite and huge), and at the end.
BAD_READINGS = day(5, 7, (21.0, 24.5, 2.5, 0.003, 0.5, 50.0), with_odd(
    [watt / 8192.0 for watt in readings(3, 3200.0, 345, 1230)],
    {0: math.nan, 1: math.inf, 500: -math.inf, 501: math.nan, 502: math.inf, 1300: 1.7e308, 1301: math.nan, 1438: math.nan, 1439: math.inf}))
# A long sink that conducts well: its cells exchange heat so fast that a minute needs some 340 stages.
RKMC2 = day(6, 32, (22.0, 26.0, 60.0, 0.004, 6e-5, 50.0), with_odd(
    readings(4, 3300.0, 340, 1245),
    {12: -7.5, 250: 5e-324, 640: math.nan, 641: -math.inf, 1000: math.inf}))
# The two-step method: each minute but the first goes on from the step before; after the minute that the engine refuses (a finite and huge reading) it begins
# without a history again, and bad readings leave it.
TSRKC2 = day(7, 12, (23.0, 27.0, 4.0, 0.003, 4e-5, 48.0), with_odd(
    readings(5, 3100.0, 335, 1250),
    {0: -2.5, 90: math.nan, 91: math.inf, 500: 1.7e308, 1100: -math.inf}))


def texts():
    """Texts that are no day, and what makes each none."""
    lines = RKL2.split("\n")
    head, first, second = lines[0], lines[1], lines[2]
    fields = head.split(" ")

    def headed(at, field):
        return " ".join(fields[:at] + [field] + fields[at + 1:]) + "\n" + first + "\n"

    return {
        "empty": "",
        "family_0": headed(0, "0"),
        "family_8": headed(0, "8"),
        "family_with_zero": headed(0, "03"),
        "n_0": headed(1, "0"),
        "n_513": headed(1, "513"),
        "n_1000": headed(1, "1000"),
        "constant_nan": headed(4, bits(math.nan)),
        "constant_missing": " ".join(fields[:7]) + "\n",
        "two_spaces": head.replace(" ", "  ", 1) + "\n",
        "lower_case": head + "\n" + first + "\n" + "40a7700000000000\n",
        "fifteen_digits": head + "\n" + first[:15] + "\n",
        "carriage_return": head + "\n" + first + "\r\n",
        "blank_line": head + "\n" + first + "\n\n" + second + "\n",
        "ends_early": "\n".join(lines[:1440]) + "\n",
        "no_line_end": RKL2[:-1],
        "goes_on": RKL2 + first + "\n",
        "blank_at_the_end": RKL2 + "\n",
    }


def write(path, text):
    os.makedirs(os.path.dirname(path), exist_ok=True)
    with open(path, "w", newline="") as file:
        file.write(text)


if __name__ == "__main__":
    write("crates/day/stdin", RKL2)
    days = {"rkl2": RKL2, "rkc": RKC, "nan_at_120": NAN_AT_120, "bad_readings": BAD_READINGS, "rkmc2": RKMC2, "tsrkc2": TSRKC2}
    for name, text in {**days, **texts()}.items():
        write("crates/days/data/" + name, text)
