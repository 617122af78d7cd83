"""Which objects have a dict: what `__slots__` say, what bases bring, and what is refused since it would change that."""


class Empty:
    __slots__ = ()


class Plain:
    pass


e = Empty()
e.x = 1
setattr(e, "x", 1)
object.__setattr__(e, "x", 1)
del e.x
e.__dict__ = {}
e.__dict__
hasattr(e, "__dict__"), hasattr(Plain(), "__dict__")
"__dict__" in dir(Empty()), "__dict__" in dir(Plain())
"__dict__" in Empty.__dict__, "__dict__" in Plain.__dict__
Empty.__slots__


class Texts:
    __slots__ = "a"


class Lists:
    __slots__ = ["a", "b"]


class OfDict:
    __slots__ = "__dict__"


class Between:
    __slots__ = ("a", "__dict__", "b")




def given(o, *names):
    found = []
    for name in names:
        try:
            setattr(o, name, 1)
        except AttributeError:
            pass
        else:
            found.append(name)
    return found


[given(o, "a", "b", "c") for o in [Texts(), Lists(), OfDict(), Between()]]
b = Between()
b.a = 1
b.b = 2
b.c = 3
b.a, b.b, b.__dict__
b.__dict__ = {"a": 5, "d": 4}
b.a, b.b, b.d
b.c
del b.a
b.a
Between.__slots__


class Numbers:
    __slots__ = 5


class Mixed:
    __slots__ = ("a", 5)


class Again(Plain):
    __slots__ = ("__dict__",)


class Twice:
    __slots__ = ("__dict__", "__dict__")


# Bases bring it, and no class takes it away.
class BelowEmpty(Empty):
    pass


class BelowPlain(Plain):
    __slots__ = ()


class Lower(BelowPlain):
    __slots__ = ("a",)


class Both(Empty, Plain):
    __slots__ = ()


class Turned(Plain, Empty):
    __slots__ = ()


class Neither(Empty):
    __slots__ = ()


[given(o, "x") for o in [BelowEmpty(), BelowPlain(), Lower(), Both(), Turned(), Neither()]]


class ListOf(list):
    __slots__ = ()


class IntOf(int):
    __slots__ = ()


class TextOf(str):
    __slots__ = ()


class DictOf(dict):
    __slots__ = ()


class PropertyOf(property):
    __slots__ = ()


class MethodOf(classmethod):
    __slots__ = ()


class ListWithDict(ListOf):
    pass


[given(o, "x") for o in [ListOf(), IntOf(3), TextOf("a"), DictOf(), PropertyOf(), MethodOf(given), ListWithDict()]]
l = ListOf([1, 2])
l.append(3)
len(l), l[2], IntOf(3) + 4, TextOf("a") + "b"


# A __dict__ of the class's own.
class Five:
    __slots__ = ()
    __dict__ = 5


class Computed:
    __slots__ = ("names",)

    def __init__(self):
        self.names = ["a"]

    @property
    def __dict__(self):
        return {"names": self.names}


class FiveToo:
    __dict__ = 5


Five().__dict__
Five().x = 1
Five().__dict__ = {}
Computed().__dict__
Computed().x = 1
five = FiveToo()
five.x = 1
five.x, five.__dict__
five.__dict__ = 6
five.__dict__


# What reads and sets attributes is asked all the same.
class Asked:
    __slots__ = ("seen",)

    def __init__(self):
        self.seen = []

    def __getattr__(self, name):
        self.seen.append(name)
        return name

    def __setattr__(self, name, value):
        if name == "seen":
            super().__setattr__(name, value)
        else:
            self.seen.append((name, value))


a = Asked()
a.x
a.y = 1
a.seen


class Loud:
    __slots__ = ()

    def __setattr__(self, name, value):
        super().__setattr__(name, value)


Loud().x = 1


# Other classes and other bases.
def refused(work, *args):
    try:
        work(*args)
    except TypeError:
        return True
    return False


def set_class(o, c):
    o.__class__ = c


def set_bases(c, *bases):
    c.__bases__ = bases


p = Plain()
p.x = 1
[refused(set_class, e, c) for c in (Plain, BelowEmpty, BelowPlain, OfDict, Neither)]
[refused(set_class, p, c) for c in (Empty, Neither, Texts, BelowPlain)]
type(e), type(p), p.x


class Empty2(Empty):
    __slots__ = ()


class Plain2(Plain):
    pass


class Middle(Plain2):
    __slots__ = ()


class Low(Middle):
    __slots__ = ("a",)


low = Low()
low.x, low.a = 1, 2
[refused(set_bases, Neither, c) for c in (BelowEmpty, Plain, Empty2)]
[refused(set_bases, Middle, c) for c in (Empty, Plain)]
[refused(set_bases, Low, c) for c in (Empty2, Plain2)]
low.x, low.a, low.__dict__
Neither.__bases__, Middle.__bases__, Low.__bases__
[given(o, "x") for o in (Neither(), Middle(), Low())]


# Only what the class was made with counts.
class Sealing(type):
    def __new__(meta, name, bases, namespace):
        namespace["__slots__"] = ()
        return super().__new__(meta, name, bases, namespace)


class Sealed(metaclass=Sealing):
    pass


Sealed().x = 1
Sealed.x = 2
Sealed().x
Plain2.__slots__ = ()
Plain2().x = 1
del Empty2.__slots__
Empty2().x = 1
[given(type("Made", (), {"__slots__": it})(), "a", "b") for it in ("a", ("a", "b"), ["__dict__"], ())]
type("Made", (Empty,), {})().x
type("Made", (), {"__slots__": None})


class Telling:
    __slots__ = ()

    def __init_subclass__(cls):
        cls.__slots__ = ()
        cls().x = 1


class Told(Telling):
    pass


class NotTold(Telling):
    __slots__ = ()
