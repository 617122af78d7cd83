# How classes, attributes and operators work together: a test of the kind that Python's own test_descr is made of.


class Failure:
    count = 0


def equal(found, wanted):
    if found != wanted:
        Failure.count += 1
        print("not equal:", found, wanted)


def raises(work, *args):
    try:
        work(*args)
    except AttributeError:
        return "AttributeError"
    except TypeError:
        return "TypeError"
    except Exception:
        return "another"
    return "nothing"


# Classes of one's own below those that are built in.
class Counted(dict):
    log = []

    def __getitem__(self, key):
        self.log.append(key)
        return super().__getitem__(key)

    def __setitem__(self, key, value):
        self.log.append((key, value))
        super().__setitem__(key, value)


d = Counted()
d["a"] = 1
d["b"] = d["a"] + 1
equal(Counted.log, [("a", 1), "a", ("b", 2)])
equal(len(d), 2)
equal(isinstance(d, dict), True)
equal(issubclass(Counted, dict), True)


class Numbered(int):
    def __add__(self, other):
        return Numbered(int(self) + int(other))

    def __eq__(self, other):
        return int(self) == int(other)

    def __hash__(self):
        return 0

    def __repr__(self):
        return f"<{int(self)}>"


equal(repr(Numbered(3) + 4), "<7>")
equal(type(Numbered(3) + 4) is Numbered, True)


# Members, and what has no place.
class Slotted:
    __slots__ = ("a", "__b")

    def __init__(self, a, b=None):
        self.a = a
        self.__b = b

    def both(self):
        return self.a, self.__b


s = Slotted(1)
equal(s.both(), (1, None))
equal(hasattr(s, "a"), True)
del s.a
equal(hasattr(s, "a"), False)
equal(getattr(s, "a", "empty"), "empty")
equal(raises(lambda: s.a), "AttributeError")
equal(hasattr(Slotted, "_Slotted__b"), True)


# Properties, computed and kept.
class Celsius:
    def __init__(self, degrees=0):
        self.degrees = degrees
        self.seen = []

    @property
    def kelvin(self):
        self.seen.append("get")
        return self.degrees + 273

    @kelvin.setter
    def kelvin(self, value):
        self.seen.append("set")
        self.degrees = value - 273

    @kelvin.deleter
    def kelvin(self):
        self.seen.append("delete")
        del self.degrees


t = Celsius(27)
equal(t.kelvin, 300)
t.kelvin += 10
equal(t.degrees, 37)
del t.kelvin
equal(raises(lambda: t.kelvin), "AttributeError")
equal(t.seen, ["get", "get", "set", "delete", "get"])


class Cached:
    def __init__(self, function):
        self.function = function

    def __set_name__(self, owner, name):
        self.name = name

    def __get__(self, instance, owner=None):
        if instance is None:
            return self
        value = instance.__dict__[self.name] = self.function(instance)
        return value


class Square:
    def __init__(self, side):
        self.side, self.asked = side, 0

    @Cached
    def area(self):
        self.asked += 1
        return self.side**2


q = Square(4)
equal((q.area, q.area, q.asked), (16, 16, 1))
equal(Square.area.name, "area")


# Functions that make functions, as methods too.
def counted(function):
    calls = 0

    def wrapper(*args):
        nonlocal calls
        calls += 1
        return calls, function(*args)

    return wrapper


class Shop:
    names = []

    @counted
    def sell(self, what):
        self.names.append(what)
        return what

    @classmethod
    def make(cls, *names):
        made = cls()
        for name in names:
            made.sell(name)
        return made

    @staticmethod
    def total(*prices):
        sum_ = 0
        for price in prices:
            sum_ += price
        return sum_


equal(Shop.make("a", "b").sell("c"), (3, "c"))
equal(Shop.names, ["a", "b", "c"])
equal(Shop.total(*[price * 2 for price in (1, 2, 3)]), 12)


# Linearisations, and super along them.
class Base:
    def path(self):
        return ["Base"]


def below(name, *bases):
    def path(self):
        return [name] + super(made, self).path()

    made = type(name, bases, {"path": path})
    return made


Left = below("Left", Base)
Right = below("Right", Base)
Both = below("Both", Left, Right)
equal(Both().path(), ["Both", "Left", "Right", "Base"])
equal([cls.__name__ for cls in Both.__mro__], ["Both", "Left", "Right", "Base", "object"])
equal(raises(lambda: below("Wrong", Base, Left)), "TypeError")


# A metaclass that keeps the classes that it makes.
class Registry(type):
    kept = {}

    def __new__(meta, name, bases, namespace, abstract=False):
        made = super().__new__(meta, name, bases, namespace)
        if not abstract:
            meta.kept[name] = made
        return made

    def __contains__(cls, name):
        return name in cls.kept

    def __len__(cls):
        return len(cls.kept)

    def __call__(cls, *args):
        made = super().__call__(*args)
        made.registered = cls.__name__
        return made


class Plugin(metaclass=Registry):
    def __init__(self, *args):
        self.args = args


class Reader(Plugin):
    pass


equal(("Reader" in Plugin, "Writer" in Plugin, len(Plugin)), (True, False, 2))
equal((Reader(1, 2).args, Reader().registered), ((1, 2), "Reader"))


# Iteration, containment and comparison by hand.
class Span:
    def __init__(self, low, high):
        self.low, self.high = low, high

    def __iter__(self):
        at = self.low
        found = []
        while at < self.high:
            found.append(at)
            at += 1
        return iter(found)

    def __contains__(self, value):
        return self.low <= value < self.high

    def __lt__(self, other):
        return (self.low, self.high) < (other.low, other.high)

    def __bool__(self):
        return self.low < self.high


first, *others = Span(1, 4)
equal((first, others), (1, [2, 3]))
equal([x for x in Span(0, 6) if x % 2], [1, 3, 5])
equal((3 in Span(1, 4), 4 in Span(1, 4), 1 < 3 in Span(1, 4)), (True, False, True))
equal((Span(1, 2) < Span(1, 3), Span(1, 3) > Span(1, 2), not Span(2, 2)), (True, True, True))
equal(Failure.count, 0)
print("failures:", Failure.count)
