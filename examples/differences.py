# Where the machine is known to answer otherwise than Python: docs/DIFFERENCES.md.


class A:
    nothing = None

    def method(self):
        return 1


a = A()

# These show by themselves.
7 / 2
pow(3, 4, 5)
{(1, 2): 3}

# These are named.
a.method == a.method  # differs: bound-methods


class M(type):
    pass


class N(M):
    pass


class B(metaclass=M):
    pass


class C(metaclass=N):
    pass


class Both(B, C):
    pass


type(Both)


class P:
    __slots__ = "x"


class Q:
    __slots__ = "x"


p = P()
p.__class__ = Q  # differs: layouts

# After this nothing is compared.
2**200
"not compared"
