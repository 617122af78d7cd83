"""Functions that the front end has written in Python."""

for i in range(3):
    print(i)
[x for x in range(2, 10, 3)], [*range(5, 0, -2)], [*range(0)], [*range(-3)]
len(range(10)), len(range(10, 0, -3)), range(5)[2], range(5)[-1], 3 in range(5), 7 in range(5)
range(5)[9]
range(0, 10, 0)
range("a")
range()
repr(range(3)), repr(range(1, 9, 2)), range(3) == range(0, 3), range(3) == 5
range(3)
type(range(3))
isinstance(range(3), range)


def indices(items):
    found = []
    for at, item in enumerate(items):
        if item:
            found.append(at)
    return found


indices([0, 1, 2, 0])
[*enumerate("ab")], [*enumerate("ab", 5)], [*enumerate("ab", start=1)]
[*zip("abc", (1, 2), [3, 4, 5])], [*zip()]
[*map(lambda x: x * 2, (1, 2))], [*map(lambda x, y: (x, y), "ab", (1, 2, 3))]
[*filter(None, [0, 1, "", "a"])], [*filter(lambda x: x > 1, [1, 2, 3])]
[*reversed([1, 2, 3])], [*reversed("ab")], [*reversed(range(4))]
sum([1, 2, 3]), sum([], 5), sum([[1], [2]], []), sum((1, 2), start=10)
any([0, 2]), any([]), all([1, 0]), all([])
min(3, 1, 2), max(3, 1, 2), min([5, 4]), max("abc"), min([], default=0), max([1, -5], key=abs)
min([])
max(1, 2, default=3)
min(1, "a")
sorted([3, 1, 2]), sorted("bca"), sorted([3, 1, 2], reverse=True), sorted([-3, 1, 2], key=abs), sorted(())
sorted([(1, "b"), (0, "a"), (1, "a")], key=lambda pair: pair[0])
sorted([(1, "b"), (0, "a"), (1, "a")], key=lambda pair: pair[0], reverse=True)
sorted([5, 3, 3, 8, 1, 9, 2, 7])
sorted([1, "a"])


class Weight:
    def __init__(self, grams):
        self.grams = grams

    def __lt__(self, other):
        return self.grams < other.grams

    def __gt__(self, other):
        return self.grams > other.grams

    def __reversed__(self):
        return ["back"]


weights = [Weight(5), Weight(2), Weight(9), Weight(1)]
[it.grams for it in sorted(weights, key=lambda it: it.grams)]
[it.grams for it in sorted([Weight(2), Weight(1)])]
min(weights).grams, max(weights).grams
reversed(weights[0])


def key(value, key=None):
    return (value, key)


key(1, key=2)
total = 0
for low, high in zip(range(3), range(3, 6)):
    total += low * high
total


def matrix(rows, columns):
    return [[row * column for column in range(columns)] for row in range(rows)]


matrix(2, 3)
"grams" in sorted(dir(weights[0])), "__lt__" in sorted(dir(Weight))
