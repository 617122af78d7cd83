# Which operand's method is asked first.


class A:
    def __add__(self, other):
        return "A adds"

    def __radd__(self, other):
        return "A is added"


class Inherits(A):
    pass


class Overrides(A):
    def __radd__(self, other):
        return "Overrides is added"


# The right operand's class derives from the left one's: its own reflected method goes first, and an inherited one doesn't.
A() + Inherits()
A() + Overrides()

# A class that has no reflected method leaves the sum to one that derives from it and has one.


class Plain:
    def __add__(self, other):
        return "Plain adds"


class Late(Plain):
    pass


Plain() + Late()
Late.__radd__ = lambda self, other: "Late is added"
Plain() + Late()
