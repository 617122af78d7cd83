"""Attributes that may be missing, or whose names are computed."""


class A:
    x = None
    __slots__ = ("empty",)

    def __getattr__(self, name):
        if name == "made":
            return "made up"
        raise AttributeError(name)


a = A()
hasattr(a, "x"), hasattr(a, "made"), hasattr(a, "nope"), hasattr(a, "empty")
hasattr(A, "x"), hasattr(A, "made")
hasattr(5, "real_not"), hasattr(5, "__add__")
getattr(a, "x"), getattr(a, "made"), getattr(a, "nope", "default")
getattr(a, "nope")
getattr(A, "nope", None)
getattr(5, "__nope__", [])
name = "ma" + "de"
getattr(a, name)
getattr(a, name, 3)
getattr(a, name + "!")
getattr(A, "x" + "", 7)
getattr(a, 5)
hasattr(a, 5)


class Faulty:
    @property
    def broken(self):
        raise AttributeError("inside")

    @property
    def worse(self):
        raise ValueError("inside")

    def __getattr__(self, name):
        return ("else", name)


f = Faulty()
f.broken
hasattr(f, "broken")
f.worse
hasattr(f, "worse")
getattr(f, "worse", 1)


class B:
    pass


b = B()
setattr(b, "a" + "b", 5)
b.ab
setattr(b, "c", 6)
b.c
delattr(b, "a" + "b")
hasattr(b, "ab")
delattr(b, "nope")
setattr(B, name, "on the class")
B.made, b.made


class Meta(type):
    def __getattr__(cls, name):
        return (cls, name)


class WithMeta(metaclass=Meta):
    pass


getattr(WithMeta, "any" + "thing")
getattr(WithMeta, "thing", 0)
hasattr(WithMeta, "what")


class Dir:
    def __dir__(self):
        return ["a", "b"]


class Base:
    limit = 1


class Below(Base):
    pass


len(dir(Dir()))
dir(Dir())
"limit" in dir(Below), "limit" in dir(Below())
"nope" in dir(Below)


class C:
    def f(self):
        return g(__x=1)


def g(_C__x=0, __x=0):
    return (_C__x, __x)


class Outer:
    class Inner:
        class Innermost:
            pass


Outer.Inner.__qualname__, Outer.Inner.Innermost.__qualname__, Outer.__qualname__
Outer.Inner.__name__
type("a: b", (), {})
