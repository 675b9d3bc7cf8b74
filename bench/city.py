"""A city of its own making: a grid of streets, cars that drive along them, and walkers on the pavements."""

# Streets lie 100 m apart and have a lane of 3.5 m for each direction, and pavements beside them.
STREETS = 8
BLOCK = 100
LANE = 3.5
CROSSING = 5
CARS = 100
WALKERS = 40


def line(points):
    return "".join(f"<point><x>{x:g}</x><y>{y:g}</y></point>" for x, y in points)


def turned(points, upright):
    """Points of a street along x, or of one along y."""
    return [(-y, x) for x, y in points] if upright else points


def lane(number, upright, street, side, a, b):
    """A lane from a to b along a street, on the right of its middle: side 1 is driven forward, -1 back."""
    count = max(1, round((b - a) / 10))
    along = [a + (b - a) * k / count for k in range(count + 1)]
    middle = street * BLOCK * (-1 if upright else 1)
    if side == -1:
        along.reverse()
    bounds = [turned([(x, middle + offset) for x in along], upright) for offset in (0, -side * LANE)]
    left, right = (f"<{name}>{line(points)}</{name}>" for name, points in zip(("leftBound", "rightBound"), bounds))
    return f'<lanelet id="{number}">{left}{right}</lanelet>\n'


def lanes():
    """Each street by the stretches between crossings and over them, in both directions."""
    ends = [-BLOCK / 2]
    for street in range(STREETS):
        ends += [street * BLOCK - CROSSING, street * BLOCK + CROSSING]
    number = 0
    for upright in (False, True):
        for street in range(STREETS):
            for a, b in zip(ends, ends[1:]):
                for side in (1, -1):
                    number += 1
                    yield lane(number, upright, street, side, a, b)


def moving(number, shape, poses):
    """An obstacle with a pose (x, y, heading, speed) at each tick."""

    def state(tick, pose):
        x, y, heading, speed = pose
        return f"<position><point><x>{x:.2f}</x><y>{y:.2f}</y></point></position><orientation><exact>{heading}</exact></orientation><time><exact>{tick}</exact></time><velocity><exact>{speed}</exact></velocity>"

    first, *others = (state(tick, pose) for tick, pose in enumerate(poses))
    later = "".join(f"<state>{one}</state>" for one in others)
    return f'<dynamicObstacle id="{number}"><shape>{shape}</shape><initialState>{first}</initialState><trajectory>{later}</trajectory></dynamicObstacle>\n'


def along(upright, street, offset, start, speed, side, ticks):
    """The poses of somebody who keeps to one offset of a street, 0.2 s a tick."""
    heading = (1.570796 if upright else 0) + (0 if side == 1 else 3.141592)
    middle = street * BLOCK * (-1 if upright else 1)
    places = [(start + side * speed * tick / 5, middle + offset) for tick in range(ticks + 1)]
    return [(x, y, heading, speed) for x, y in turned(places, upright)]


def traffic(draw, ticks):
    car = "<rectangle><length>4.5</length><width>1.8</width></rectangle>"
    walker = "<circle><radius>0.3</radius></circle>"
    for number in range(CARS):
        upright, side = draw() % 2 == 1, 1 - 2 * (draw() % 2)
        street, start, speed = draw() % STREETS, draw() % (STREETS * BLOCK), 4 + draw() % 8
        yield moving(10000 + number, car, along(upright, street, -side * LANE / 2, start, speed, side, ticks))
    for number in range(WALKERS):
        upright, side = draw() % 2 == 1, 1 - 2 * (draw() % 2)
        street, start = draw() % STREETS, draw() % (STREETS * BLOCK)
        yield moving(20000 + number, walker, along(upright, street, -side * (LANE + 1), start, 1.2, side, ticks))


def city(draw, ticks):
    """The lanelets and obstacles of the city, which moves for so many ticks."""
    return "".join(lanes()) + "".join(traffic(draw, ticks))
