# What is changed in a base counts at once for all classes and objects below it.


class A:
    pass


class B(A):
    pass


class C(B):
    def __len__(self):
        return 4


c = C()
c + 1
A.__add__ = lambda self, other: ("A", other)
c + 1
B.__add__ = lambda self, other: ("B", other)
c + 1
del B.__add__
c + 1
A.__bool__ = lambda self: False
"true" if c else "false"
del A.__bool__
"true" if c else "false"
del C.__len__
A.__eq__ = lambda self, other: "equal"
c == 1
C.__hash__

# Another base in between, for a class that has objects already.
class Z:
    def __add__(self, other):
        return ("Z", other)

    def extra(self):
        return "extra"


B.__bases__ = (Z, A)
C.__mro__
c + 1
c.extra()
del A.__add__, Z.__add__
c + 1
c += 1
