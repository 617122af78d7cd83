# A diamond: each class of it is asked once, in the order of the linearisation.


class A:
    def name(self):
        return "A"


class B(A):
    def name(self):
        return ("B", super().name())


class C(A):
    def name(self):
        return ("C", super().name())


class D(B, C):
    def name(self):
        return ("D", super().name())


D().name()
B().name()
D.__mro__

# An order that keeps both lines of bases is not to be had.
class E(C, B):
    pass


class F(D, E):
    pass
