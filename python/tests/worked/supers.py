"""`super()` in loops, in what a try runs, and in classes that functions make."""


class Base:
    items = (1, 2)

    def __init__(self):
        self.x = 1

    def each(self, item):
        return ("Base", item)

    def __getattr__(self, name):
        if name == "made":
            return "made by Base"
        raise AttributeError(name)


class Below(Base):
    def each(self, item):
        return ("Below", item)

    def all(self):
        found = []
        for item in super().items:
            found.append(super().each(item))
        return found

    def __getattr__(self, name):
        try:
            return super().__getattr__(name)
        except AttributeError:
            return ("Below's own", name)

    def until(self, limit):
        at = 0
        while super().each(at) != ("Base", limit):
            at += 1
        return at


b = Below()
b.all()
b.made, b.other, b.x
b.until(2)


def make(base, tag):
    class Made(base):
        def each(self, item):
            return (tag, super().each(item))

        def again(self, *args):
            for item in args:
                return (tag, super().each(item))

        @classmethod
        def build(cls):
            return (tag, cls, super().items)

        def __init__(self):
            super().__init__()
            self.tag = tag

    return Made


Made = make(Base, "t")
m = Made()
m.each(1), m.again(2), m.tag, m.x
Made.build()
Twice = make(Made, "u")
Twice().each(3)
Twice.__mro__


def nested():
    class Outer(Base):
        def inner(self):
            return nested, super().each(0)

    return Outer


nested()().inner()
