"""Loops and list comprehensions."""

total = 0
for x in (1, 2, 3):
    total += x
total, x


def read_total():
    return total


for x in [10, 20]:
    total = total + x
    read_total()
read_total()
n = 4
while n:
    n -= 1
    if n == 2:
        continue
    if n == 0:
        break
    print("n is", n)
else:
    print("never")
n
for letter in "abc":
    if letter == "z":
        break
else:
    "none"
    print("no z in it")


def find(items, wanted):
    for place in items:
        if place == wanted:
            return ("found", place)
    return "missing"


find([1, 2, 3], 2)
find([1, 2, 3], 9)


def pairs(left, right):
    made = []
    for a in left:
        for b in right:
            if a == b:
                continue
            if b == 4:
                break
            made.append((a, b))
    return made


pairs((1, 2), (1, 2, 3, 4, 5))


def nested(rows):
    for row in rows:
        for cell in row:
            if cell < 0:
                return cell
    else:
        return "none below zero"


nested([[1, 2], [3, -4, -5]])
nested([[1]])


class Countdown:
    def __init__(self, start):
        self.start = start

    def __iter__(self):
        return self

    def __next__(self):
        if self.start == 0:
            raise StopIteration
        self.start = self.start - 1
        return self.start


def show(x):
    return x


for x in Countdown(3):
    show(x)
x


class Sequence:
    def __getitem__(self, at):
        if at > 2:
            raise IndexError
        return at * 10


for x in Sequence():
    show(x)
for a, (b, c) in [(1, (2, 3)), (4, "xy")]:
    print(a, b, c)
d = {"k": 1, "l": 2}
for key in d:
    print(key, d[key])
for x in 5:
    pass
for x in [1, 2]:
    raise StopIteration
for x in [1, 2]:
    x + "a"
x
[y * y for y in (1, 2, 3)]
[(p, q) for p in (1, 2) for q in "ab"]
[p for p in (1, 2, 3, 4) if p % 2 == 0 if p > 2]


def squares(limit, offset):
    return [k * k + offset for k in limit]


squares([1, 2, 3], 1)
y


class Holder:
    def __init__(self, parts):
        self.parts = parts

    def names(self):
        return [part.name for part in self.parts]


class Part:
    def __init__(self, name):
        self.name = name


Holder([Part("a"), Part("b")]).names()


def collatz(n):
    steps = 0
    while n != 1:
        if n % 2:
            n = 3 * n + 1
        else:
            n //= 2
        steps += 1
    return steps


collatz(6)


def last(items):
    for item in items:
        pass
    return item


last([1, 2])
last([])
for unbound in []:
    pass
unbound


def until(limit):
    n = 0
    while True:
        n += 1
        if n > limit:
            return n


until(4)
[[cell * 2 for cell in row] for row in [[1, 2], [3]]]
[f() for f in [lambda: z for z in (1, 2)]]


def table(rows):
    return [[cell + len(row) for cell in row if cell] for row in rows]


table([[1, 0], [2]])


def makers():
    return [lambda: value for value in (1, 2, 3)]


[make() for make in makers()]
