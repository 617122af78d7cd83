"""Slices without a bound."""

x = [1, 2, 3, 4]
x[1:]
x[:2]
x[:]
x[:] is x
x[-2:]
x[:-1]
"text"[1:]
"text"[:2]
(1, 2, 3)[1:]
x[1:None]
x[2:] = ["c", "d", "e"]
x
x[:1] = []
x
del x[2:]
x
x[:] = (7, 8)
x
x[1:] += [9]
x


def tail(items):
    return tail(items[1:]) + [items[0]] if items else []


tail([1, 2, 3])
