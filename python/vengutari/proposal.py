"""A first guess at the lines, from which a box and a start vector are made. Nothing here is certified, and nothing needs to be.

Lines are found one after another, each the best of many that pass through a few points drawn at random (the sampling of source
documents 001 and 003). Then each point goes to its line within epsilon and each line becomes the least squares line of its points, until
nothing changes: the alternation of source document 000, formulas (41) and (42), for several lines at once. Everything is in whole
numbers of the records, before the scale. The library says what a guess costs, and which line a point belongs to.
"""

import itertools
import math
import operator
import random

from . import scaling
from .library import LARGEST_EPSILON, OUTLIER, SPOILED, Model
from .problems import BadInput

SEED = 1
STARTS = 6
DRAWS = {1: 40, 2: 120, 3: 250, 4: 500}
# So many points at most are drawn from and costed while sampling.
SAMPLE = 400
# So many points at most are guessed from, before all are looked at.
FEWER = 1000
TURNS = 40
# Without a threshold, guesses are made by several, each so many times smaller than the one before.
THRESHOLDS = 8
SMALLER = 3
NONE_FOUND = "no lines to begin with were found in these points: give --box and --start"


def solve(matrix, right):
    """A few linear equations, by elimination; None where they say too little."""
    size = len(right)
    rows = [[*map(float, row), float(value)] for row, value in zip(matrix, right)]
    largest = max(abs(value) for row in rows for value in row[:size])
    for k in range(size):
        pivot = max(range(k, size), key=lambda i: abs(rows[i][k]))
        if abs(rows[pivot][k]) <= 1e-9 * largest:
            return None
        rows[k], rows[pivot] = rows[pivot], rows[k]
        for i in range(size):
            if i != k:
                factor = rows[i][k] / rows[k][k]
                rows[i] = [a - factor * b for a, b in zip(rows[i], rows[k])]
    return [rows[k][size] / rows[k][k] for k in range(size)]


class Cloud:
    """Samples in whole numbers, their store, and the products that sums of squares are made of."""

    def __init__(self, whole):
        self.whole = whole
        self.d = len(whole.x)
        self.store, _ = scaling.store_of(whole)
        self._products = None

    def __len__(self):
        return len(self.whole)

    def products(self):
        """x_a x_b by a and b, and x_a y by a, point by point."""
        if self._products is None:
            x, y = self.whole.x, self.whole.y
            squares = {(a, b): list(map(operator.mul, x[a], x[b])) for a in range(self.d) for b in range(a + 1)}
            self._products = squares, [list(map(operator.mul, values, y)) for values in x]
        return self._products

    def least_squares(self, chosen):
        """The line with the least squares over the points whose entry is 1."""
        squares, rights = self.products()
        sums = {pair: sum(itertools.compress(values, chosen)) for pair, values in squares.items()}
        matrix = [[sums[max(a, b), min(a, b)] for b in range(self.d)] for a in range(self.d)]
        return solve(matrix, [sum(itertools.compress(values, chosen)) for values in rights])

    def part(self, count, numbers):
        """So many of the points at most, drawn at random."""
        if len(self) <= count:
            return self
        drawn = set(numbers.sample(range(len(self)), count))
        return Cloud(self.whole.chosen([k in drawn for k in range(len(self))]))

    def line_through(self, rows):
        """The line through as many points as it has coefficients."""
        return solve([[values[k] for values in self.whole.x] for k in rows], [self.whole.y[k] for k in rows])


class Search:
    """Guesses over one set of points."""

    def __init__(self, library, n, epsilon):
        self.library = library
        self.n = n
        self.epsilon = max(epsilon, 1e-6)
        self.random = random.Random(SEED)

    def scaled(self, lines, p):
        """The model and the vector of some lines, or None where no scale holds them."""
        scale = scaling.widest_scale([abs(c) for line in lines for c in line], self.epsilon)
        if scale < 0:
            return None
        epsilon = min(LARGEST_EPSILON, max(1, round(self.epsilon * 2**scale)))
        return Model(len(lines), len(lines[0]), scale, p, epsilon), [round(c * 2**scale) for line in lines for c in line]

    def cost(self, cloud, lines):
        """What lines cost by cut squares, in whole units of y, or None where no scale holds them."""
        scaled = self.scaled(lines, 2)
        return None if scaled is None else self.library.cost(cloud.store, *scaled) / 4 ** scaled[0].scale

    def drawn_line(self, cloud):
        """The best of many lines through a few of these points."""
        sample, best = cloud.part(SAMPLE, self.random), None
        for _ in range(DRAWS[cloud.d]):
            line = sample.line_through(self.random.sample(range(len(sample)), cloud.d))
            cost = None if line is None else self.cost(sample, [line])
            if cost is not None and (best is None or cost < best[0]):
                best = (cost, line)
        return None if best is None else best[1]

    def labels(self, cloud, lines):
        """The line of each point, or None where no scale holds the lines."""
        scaled = self.scaled(lines, 0)
        return None if scaled is None else self.library.labels(cloud.store, *scaled)

    def one_after_another(self, cloud):
        """A line for each mode, each from the points that those before it leave."""
        lines, left = [], cloud
        for _ in range(self.n):
            if len(left) < 2 * cloud.d:
                left = cloud
            line = self.drawn_line(left) if len(left) >= cloud.d else None
            if line is None:
                return None
            lines += self.alternated([line], left)
            labels = self.labels(left, lines[-1:])
            left = left if labels is None else Cloud(left.whole.chosen([label == OUTLIER for label in labels]))
        return lines

    def alternated(self, lines, cloud):
        """Points to their lines, lines to the least squares of their points, until nothing changes."""
        before = None
        for _ in range(TURNS):
            labels = self.labels(cloud, lines)
            if labels is None or labels == before:
                break
            before, fitted = labels, []
            for j, line in enumerate(lines, 1):
                chosen = labels.translate(bytes(k == j for k in range(256)))
                new = cloud.least_squares(chosen) if labels.count(j) >= cloud.d else None
                fitted.append(line if new is None else new)
            lines = fitted
        return lines

    def best(self, cloud):
        """The cheapest guess of several starts."""
        fewer, best = cloud.part(FEWER, self.random), None
        for _ in range(STARTS):
            lines = self.one_after_another(fewer)
            lines = lines and self.alternated(lines, fewer)
            cost = lines and self.cost(fewer, lines)
            if cost is not None and (best is None or cost < best[0]):
                best = (cost, lines)
        if best is None:
            raise BadInput(NONE_FOUND)
        return best[1] if fewer is cloud else self.alternated(best[1], cloud)


def propose(library, cloud, n, epsilon):
    """Lines that fit the points well, by their first coefficients: the steepest first."""
    if len(cloud) < cloud.d:
        raise BadInput(f"{len(cloud)} sample{'s are' if len(cloud) > 1 else ' is'} too few for lines of {cloud.d} coefficients: give --box")
    return sorted(Search(library, n, epsilon).best(cloud), key=lambda line: -line[0])


def spoiled_cost(library, cloud, lines, spoiled):
    """The largest distance of a point to its nearest line but for so many, in whole units of y, or None where no scale holds the lines."""
    scale = scaling.widest_scale([abs(c) for line in lines for c in line], 0)
    if scale < 0:
        return None
    vector = [round(c * 2**scale) for line in lines for c in line]
    return library.cost(cloud.store, Model(len(lines), len(lines[0]), scale, SPOILED, spoiled), vector) / 2**scale


def propose_spoiled(library, cloud, n, spoiled):
    """Lines that all points but so many lie near, and how near: the best guess by several thresholds, and then by its own distance."""
    fewer = cloud.part(FEWER, random.Random(SEED))
    threshold, best = float(max(1, max(cloud.whole.y) - min(cloud.whole.y))), None
    for _ in range(THRESHOLDS):
        threshold /= SMALLER
        lines = propose(library, fewer, n, threshold)
        cost = spoiled_cost(library, cloud, lines, spoiled)
        if cost is not None and (best is None or cost < best[1]):
            best = (lines, cost)
        if threshold < 1 or (best is not None and threshold < best[1] / SMALLER):
            break
    if best is None:
        raise BadInput(NONE_FOUND)
    lines = propose(library, cloud, n, best[1])
    cost = spoiled_cost(library, cloud, lines, spoiled)
    return (lines, cost) if cost is not None and cost < best[1] else best


# The box and the start


def margins(samples, offset, epsilon, margin):
    """How far each coefficient may go: no line nearer than margin times epsilon to the guess over the points lies outside."""
    reach, sides = margin * max(epsilon, 1), []
    if not offset:
        share = 1 if len(samples.x) == 1 else 2
        return [share * reach / max(map(abs, values)) for values in samples.x]
    around = reach
    for values in samples.x[:-1]:
        sides.append(2 * reach / (max(values) - min(values)))
        around += sides[-1] * abs(max(values) + min(values)) / 2
    return [*sides, around / samples.x[-1][0]]


def box_around(lines, sides):
    low = [c - side for line in lines for c, side in zip(line, sides)]
    high = [c + side for line in lines for c, side in zip(line, sides)]
    return low, high


def inside(vector, low, high):
    return [min(max(w, a), b) for w, a, b in zip(vector, low, high)]


def arranged(lines, scale):
    """The guess as vectors of the grid, in every order of its lines."""
    for order in itertools.permutations(lines):
        yield [max(-32768, min(32767, round(c * 2**scale))) for line in order for c in line]


def polished(library, store, model, low, high, vector):
    """The vector moved by steps of the grid, one line at a time, as long as that makes it cheaper."""
    cost = library.cost(store, model, vector)
    size = max(1, 2 ** int(math.log2(max(1, max(b - a for a, b in zip(low, high)) / 8))))
    moves = [move for move in itertools.product((-1, 0, 1), repeat=model.d) if any(move)]
    while size >= 1:
        improved = False
        for first, move in itertools.product(range(0, model.n * model.d, model.d), moves):
            tried = list(vector)
            for k, side in enumerate(move):
                tried[first + k] += side * size
            tried = inside(tried, low, high)
            tried_cost = library.cost(store, model, tried)
            if tried_cost < cost:
                vector, cost, improved = tried, tried_cost, True
        size = size if improved else size // 2
    return vector


def start_in(library, store, model, low, high, guesses):
    """The cheapest of some vectors, moved into the box and polished."""
    vectors = [inside(vector, low, high) for vector in guesses]
    best = min(vectors, key=lambda vector: library.cost(store, model, vector))
    return polished(library, store, model, low, high, best)
