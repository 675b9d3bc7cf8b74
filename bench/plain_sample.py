#!/usr/bin/env python3
"""Counts the answer over a sample scene in plain Python, and prints what `sample N` prints.

usage: plain_sample.py N

It shares nothing with the program but the description of the scene: forty cars on three lanes, thirteen maneuvers of five steps, and
five rules. Every box lies along the axes, so nothing is turned. Lengths are in 0.1 mm, speeds in mm/s.
"""
import sys

LENGTH, WIDTH, LAST, STEPS = 45_000, 18_000, 30, 5
SPEEDS = {"slow": 5_000, "mid": 10_000, "fast": 15_000}
# Which rules each rule is above: collision, road, gap, smooth, lane.
ABOVE = [{1, 2, 3, 4}, {2, 3, 4}, {3, 4}, set(), set()]


def cars(number):
    """For each car its y, its first x and its speed in m/s."""
    state = number

    def draw():
        nonlocal state
        state = (1_103_515_245 * state + 12_345) % 2**31
        return state // 65_536

    for _ in range(40):
        lane, start, speed = draw(), draw(), draw()
        yield 40_000 * (lane % 3), 10_000 * (10 + start % 400), 4 + speed % 8


def maneuvers():
    """For each maneuver its first letters, its classes, and its places after each step."""
    for name, speed in SPEEDS.items():
        for kind, side in (("keep", 0), ("side", 8_000), ("side", -8_000)):
            yield kind, name, name, [(2 * speed * j, side * j) for j in range(1, STEPS + 1)]
    for start, end, sign in (("slow", "mid", 1), ("mid", "fast", 1), ("mid", "slow", -1), ("fast", "mid", -1)):
        yield "speed", start, end, [(2 * SPEEDS[start] * j + sign * 1_000 * j * j, 0) for j in range(1, STEPS + 1)]


def box(x, y):
    return x - LENGTH // 2, x + LENGTH // 2, y - WIDTH // 2, y + WIDTH // 2


def cost(obstacles, x, y, kind):
    """What a step violates of each rule."""
    left, right, low, high = box(x, y)
    gaps = [max(o[0] - right, left - o[1], o[2] - high, low - o[3]) for o in obstacles]
    corners = [(cx, cy) for cx in (left, right) for cy in (low, high)]
    off = sum(not (-500_000 <= cx <= 5_000_000 and -20_000 <= cy <= 100_000) for cx, cy in corners)
    near = max(0, 20_000 - max(0, min(gaps)))
    return sum(gap <= 0 for gap in gaps), off, near, int(kind == "speed"), int(kind == "side")


def added(one, other):
    return tuple(a + b for a, b in zip(one, other))


def no_worse(x, y):
    return all(any(x[i] < y[i] and j in ABOVE[i] for i in range(5)) for j in range(5) if x[j] > y[j])


def front(vectors):
    vectors = set(vectors)
    return [v for v in vectors if not any(no_worse(w, v) and not no_worse(v, w) for w in vectors)]


def main():
    number = int(sys.argv[1])
    drawn = list(cars(number))
    obstacles = [[box(x + 2_000 * speed * tick, y) for y, x, speed in drawn] for tick in range(LAST + 1)]
    choices = list(maneuvers())
    reached = {(0, 40_000, "mid"): [cost(obstacles[0], 0, 40_000, "")]}
    labels = 1
    for tick in range(0, LAST, STEPS):
        later = {}
        for (x, y, name), vectors in reached.items():
            for kind, start, end, places in choices:
                if start == name:
                    total = (0,) * 5
                    for j, (forward, left) in enumerate(places):
                        total = added(total, cost(obstacles[tick + j + 1], x + forward, y + left, kind))
                    state = x + places[-1][0], y + places[-1][1], end
                    later.setdefault(state, []).extend(added(vector, total) for vector in vectors)
        reached = {state: front(vectors) for state, vectors in later.items()}
        labels += sum(map(len, reached.values()))
    answers = front(vector for vectors in reached.values() for vector in vectors)
    print(f"sample {number}\nobstacles 40\nlabels {labels}\nfront {len(answers)}\nleast", *min(answers))


main()
