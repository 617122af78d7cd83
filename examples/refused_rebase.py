# Other bases of a class are all or nothing: where a test fails, nothing has changed.


class A:
    def name(self):
        return "A"


class B(A):
    pass


class C(A):
    def name(self):
        return "C"


class D(B, C):
    pass


d = D()
d.name()

# A class can't derive from itself or from one below it.
A.__bases__ = (D,)
A.__bases__ = (A,)

# What the class's objects hold has to stay.
A.__bases__ = (int,)

# There is a base, each is a class, and none stands twice.
D.__bases__ = ()
D.__bases__ = (B, 5)
D.__bases__ = (B, B)
D.__bases__ = (A, B)

# A class below would have no order: C stands before A there.
B.__bases__ = (A, C)
D.__bases__ = (C, B)
C.__bases__ = (B,)
B.__bases__, C.__bases__, D.__mro__
d.name()

# No other bases for a built-in class.
int.__bases__ = (str,)
bool.__bases__

# After all that, one that passes.
C.__bases__ = (A,)
D.__bases__ = (B,)
d.name()
