"""Arguments from tuples."""


def f(*args):
    return args


f(*(1, 2))
f(0, *[1, 2], 3)
f(*())
t = (4, 5, 6)
f(*t)
f(1, *t, 2, *t)
f(*"abc")
f(*{"k": 1})


def g(a, b, c):
    return a + b + c


g(*t)
g(*t, 1)
g(1, *(2, 3))


class Base:
    def __new__(cls, *args):
        made = super().__new__(cls)
        made.args = args
        return made

    def take(self, *args):
        return (self.args, args)


class Below(Base):
    def __init__(self, *args):
        self.count = len(args)

    def take(self, *args):
        return super().take(*args)


b = Below(*t)
b.args, b.count
b.take(*(1, 2))
Below.take(b, *t)
[*t, 1]
(*t, *t)
[0, *"ab"]
type(*("Made", (Base,), {"x": 1})).x
