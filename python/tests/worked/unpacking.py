"""Assignments to several places."""

a, b = 1, 2
(a, b)
a, b = b, a
(a, b)
[x, (y, z)] = [1, "ab"]
(x, y, z)
first, *rest = [1, 2, 3]
(first, rest)
*front, last = (1, 2, 3)
(front, last)
head, *middle, end = "abcde"
(head, middle, end)
p, q = 1, 2, 3
p, *q, r = [1]
(m, n), o = 5, 6


class Point:
    def __init__(self, x, y):
        self.x, self.y = x, y

    def move(self, dx, dy):
        self.x, self.y = self.x + dx, self.y + dy
        return (self.x, self.y)


point = Point(3, 4)
point.x, point.y
point.move(1, 1)
u = point.x = v = 9
(u, v, point.x)
point.y = w = 7
(w, point.y)
items = [1, 2, 3]
items[0], items[2] = items[2], items[0]
items
i, items[i] = 1, "set"
items


def swap(pair):
    left, right = pair
    return right, left


swap((1, 2))
swap([1])


class Pairs:
    def __init__(self, count):
        self.count = count

    def __iter__(self):
        return self

    def __next__(self):
        if self.count == 0:
            raise StopIteration
        self.count = self.count - 1
        return self.count


one, two = Pairs(2)
(one, two)


class Log:
    def __init__(self):
        self.seen = []

    def __setattr__(self, name, value):
        object.__setattr__(self, name, value)

    def __getitem__(self, key):
        return (key, self.seen)

    def __setitem__(self, key, value):
        self.seen.append((key, value))


log = Log()
log[1], log[2] = "a", "b"
log.seen
log[0] = log[3] = 5
log.seen


def place():
    return log


place().seen += ["more"]
place().seen[0] = "first"
place().seen[1:2] = ["x", "y"]
log.seen
place().seen[0] += "!"
log.seen[0]
k: int = 3
k
del k
k
