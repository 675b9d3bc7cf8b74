"""Writes scenes and recordings for `judge` into a folder, and prints a line for each: its name, and what it is."""

import sys
from pathlib import Path

from scenes import motorway, write

HEADER = "name,tick,x,y,heading,speed,accel,turn,maneuver\n"
MOST_RECORDINGS = 200
MOST_STEPS = 1_001


def row(name, tick, x, y, heading, speed, maneuver):
    return f"{name},{tick},{x:.4f},{y:.4f},{heading:.6f},{speed:.3f},0,0,{maneuver}\n"


def drivers(number):
    """As many recordings of as many steps as are read. Each driver keeps a speed, and is now and then on the way to another lane."""
    state = number
    for driver in range(MOST_RECORDINGS):
        state = (1103515245 * state + 12345) % 2**31
        draw = state // 65536
        speed, lane, changes = 4 + draw % 8, draw // 8 % 3, 20 + draw // 32 % 60
        x, y = 0.0, 4.0 * lane
        for tick in range(MOST_STEPS):
            away = 4.0 * lane - y
            heading, maneuver = 0, ""
            if away > 0.01:
                heading, maneuver = 0.05, "left_mid"
            elif away < -0.01:
                heading, maneuver = -0.05, "right_mid"
            yield row(f"driver_{driver}", tick, x, y, heading, speed, maneuver)
            x += speed / 5
            y += max(-0.2, min(0.2, away))
            if tick % changes == changes - 1:
                lane = (lane + 1 + tick % 2) % 3


def chain():
    """Recordings each of which beats those before it: all stand at one place, and brake by a maneuver at fewer and fewer steps."""
    for driver in range(MOST_RECORDINGS):
        for tick in range(MOST_RECORDINGS):
            maneuver = "down_mid" if tick + driver < MOST_RECORDINGS - 1 else ""
            yield row(f"driver_{driver}", tick, -40, 0, 0, 0, maneuver)


folder = Path(sys.argv[1])
write(folder, "judged", motorway(7, MOST_STEPS - 1, 5000))
for name, rows, what in (
    ("drivers", drivers(7), "200 recordings of 1,001 steps"),
    ("chain", chain(), "200 recordings of 200 steps, in one chain"),
):
    (folder / f"{name}.records").write_text(HEADER + "".join(rows))
    print(name, what)
