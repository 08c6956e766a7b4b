"""Graphs for the game: paths, cycles, stars, grids, random ones, some with pairs that are no edge, some in parts that no edge joins."""


def path(regions):
    return [number for a in range(1, regions) for number in (a, a + 1)]


def cycle(regions):
    return path(regions) + [regions, 1]


def star(regions):
    return [number for a in range(2, regions + 1) for number in (1, a)]


def grid(columns, rows):
    pairs = []
    for y in range(rows):
        for x in range(columns):
            here = y * columns + x + 1
            if x + 1 < columns:
                pairs += [here, here + 1]
            if y + 1 < rows:
                pairs += [here, here + columns]
    return pairs


def random_pairs(random, regions):
    """About as many pairs as `density` times the regions, in any order and direction, some of them twice."""
    density = random.choice((0.5, 0.8, 1.1, 1.5, 2.5, 5))
    return [random.randint(1, regions) for _ in range(2 * round(density * regions))]


def no_edges(random, regions):
    """Pairs that name 0 or a region above the graph's."""
    pairs = []
    for _ in range(random.randint(1, 3)):
        pair = [random.choice((0, regions + 1, 33, 2**32 - 1)), random.randint(0, regions + 2)]
        random.shuffle(pair)
        pairs += pair
    return pairs


def graph(random):
    """The regions, the pairs and the goal of a graph at random."""
    kind = random.randrange(8)
    regions = random.choice((1, 2, 3, 4, 5, 6, 7, 8, 10, 12, 16, 20, 24, 31, 32))
    if kind == 0:
        pairs = path(regions)
    elif kind == 1 and regions > 2:
        pairs = cycle(regions)
    elif kind == 2:
        pairs = star(regions)
    elif kind == 3:
        columns, rows = random.choice(((2, 2), (2, 3), (3, 3), (4, 4), (4, 8), (5, 6), (2, 16)))
        regions = columns * rows
        pairs = grid(columns, rows)
    else:
        pairs = random_pairs(random, regions)
    if random.random() < 0.3:
        pairs = pairs + no_edges(random, regions)
    return regions, pairs, random.randint(1, regions)
