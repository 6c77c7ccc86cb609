"""Random floors of several families: points in general position and a reach."""

from math import cos, isqrt, pi, sin

from floors import MOST_COORDINATE, MOST_NODES, MOST_REACH, Map, Refused, square


def gather(count, draw):
    """Place drawn points, dropping the refused ones, until there are enough or drawing no longer helps."""
    site = Map()
    for _ in range(200 + 40 * count):
        if len(site.points) == min(count, MOST_NODES):
            break
        x, y = draw()
        if min(x, y) >= 0:
            try:
                site.place(x, y)
            except Refused:
                pass
    return site.points


def joining(points):
    """The least whole reach at which all points are joined."""
    far = {number: square(points[0], point) for number, point in enumerate(points)}
    widest = far.pop(0)
    while far:
        near = min(far, key=far.get)
        widest = max(widest, far.pop(near))
        for number in far:
            far[number] = min(far[number], square(points[near], points[number]))
    return isqrt(widest - 1) + 1 if widest else 1


def span(points):
    """The whole distance of the two points farthest apart."""
    return isqrt(max(square(a, b) for a in points for b in points))


def about_joined(rng, points):
    """A reach at which the points are just joined, or just not, or a little more than joined."""
    least = joining(points)
    more, less = [least * 9 // 8, least * 5 // 4], [least - 1, least - 1, least * 7 // 8]
    return rng.choice([least, least, least] + more + less)


def loose(rng, points):
    """A reach about that at which the points are joined, or a few times that."""
    return rng.choice([about_joined(rng, points), joining(points) * rng.randint(3, 9) // 2])


def sparse(rng, count):
    """Points all over a square, hardly joined."""
    side = rng.choice([3 * count + 3, 100, 1000, 9000, MOST_COORDINATE])
    points = gather(count, lambda: (rng.randint(0, side), rng.randint(0, side)))
    return points, about_joined(rng, points)


def dense(rng, count):
    """Points all over a square with many radio links each."""
    side = rng.choice([3 * count + 3, 100, 1000, 9000, MOST_COORDINATE])
    points = gather(count, lambda: (rng.randint(0, side), rng.randint(0, side)))
    return points, joining(points) * rng.randint(5, 16) // 4


def corridor(rng, count):
    """Points in a straight level or upright corridor; each of its few rows holds two at most."""
    width, length = rng.randint(2, 6), rng.randint(3, 9) * count
    swap = rng.random() < 0.5

    def draw():
        along, across = rng.randint(0, length), rng.randint(0, width)
        return (across, along) if swap else (along, across)

    points = gather(min(count, 2 * width + 2), draw)
    return points, loose(rng, points)


def slanted(rng, count):
    """Points in a thin slanted corridor."""
    width, length = rng.randint(2, 6), rng.randint(2, 9) * count
    across, up = rng.choice([(1, 1), (2, 1), (1, 3), (5, 2), (7, 3), (4, 9)])
    size = isqrt(across * across + up * up)

    def draw():
        way, aside = rng.randint(0, length), rng.uniform(-width / 2, width / 2)
        x = way * across / size - aside * up / size
        y = way * up / size + aside * across / size
        return round(x) + 6, round(y) + 6

    points = gather(count, draw)
    return points, loose(rng, points)


def slender(rng, count):
    """Points within a unit or two of one long line."""
    ends = [(rng.randint(2, 32765), rng.randint(2, 32765)) for _ in range(2)]
    off = rng.randint(1, 2)

    def draw():
        part = rng.random()
        return tuple(round(a + part * (b - a)) + rng.randint(-off, off) for a, b in zip(*ends))

    points = gather(count, draw)
    return points, loose(rng, points)


def extreme(rng, count):
    """Points in the corners and all over the range, with the least, the greatest and other reaches."""
    edge = [0, 1, 2, 3, 32764, 32765, 32766, 32767]
    part = rng.choice([0.2, 0.5, 0.8])

    def one():
        return rng.choice(edge) if rng.random() < part else rng.randint(0, MOST_COORDINATE)

    points = gather(count, lambda: (one(), one()))
    whole = span(points)
    return points, rng.choice([1, 2, 3, MOST_REACH, MOST_REACH - 1, whole, whole - 1, whole + 1, 32767,
                               joining(points), joining(points) - 1, joining(points)])


def clustered(rng, count):
    """Points in a few clusters that are joined, or hardly."""
    side = rng.choice([200, 2000, 20000])
    reach = side // 12 + 3
    middles = [(rng.randint(reach, side), rng.randint(reach, side)) for _ in range(rng.randint(2, 5))]

    def draw():
        x, y = rng.choice(middles)
        return x + rng.randint(-reach, reach), y + rng.randint(-reach, reach)

    points = gather(count, draw)
    return points, rng.choice([about_joined(rng, points), reach, 2 * reach])


def grid(rng, count):
    """Points of small coordinates, so that equal distances and points on circles are common."""
    side = max(4, count * rng.randint(8, 14) // 10)
    points = gather(count, lambda: (rng.randint(0, side), rng.randint(0, side)))
    return points, rng.choice([about_joined(rng, points), about_joined(rng, points), 1, 2, 5, 10])


def rings(rng, count):
    """Points in rings about one middle, with wide empty faces between."""
    turns = rng.randint(1, 3)
    step = rng.randint(3 * count, 12 * count) + 10
    middle = step * turns + step

    def draw():
        ring = rng.choices(range(1, turns + 1), range(1, turns + 1))[0]
        angle, radius = rng.uniform(0, 2 * pi), step * ring + rng.randint(-step // 12, step // 12)
        return round(middle + radius * cos(angle)), round(middle + radius * sin(angle))

    points = gather(count, draw)
    return points, loose(rng, points)


def spiral(rng, count):
    """Points on a spiral, so that the only way runs round and round."""
    turns = rng.uniform(1.2, 3.2)
    step = rng.randint(4 * count, 10 * count) + 10
    middle = round(step * turns) + step
    places = iter([(number + 0.4 * rng.random()) / count for number in range(count)] * 50)

    def draw():
        part = next(places, 1) ** 0.6
        angle, radius = 2 * pi * turns * part, step * (0.3 + turns * part)
        return (round(middle + radius * cos(angle)) + rng.randint(-1, 1),
                round(middle + radius * sin(angle)) + rng.randint(-1, 1))

    points = gather(count, draw)
    return points, loose(rng, points)


FAMILIES = [sparse, dense, corridor, slanted, slender, extreme, clustered, grid, rings, spiral]


def floor(rng, family, count):
    """A floor of a family: its points, at least two, and a reach that is allowed."""
    while True:
        points, reach = family(rng, max(2, count))
        if len(points) >= 2:
            return points, min(max(reach, 1), MOST_REACH)
