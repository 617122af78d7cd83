"""Variables that may have no value where they are read."""


def f(c):
    if c:
        x = 1
    return x


f(1)
f(0)


def g():
    y += 1
    return y


g()


def h(c):
    if c:
        raise ValueError
    else:
        z = 1
    del z
    return z


h(0), h(1)


class A:
    def m(self, c):
        try:
            if c:
                v = self.nope
            else:
                v = "set"
        except AttributeError:
            pass
        return v


A().m(0)
A().m(1)


def outer(c):
    def inner():
        if c:
            w = 1
        return w

    return inner


outer(1)()
outer(0)()
k = [u for u in (1, 2)]
u
(lambda c: (n := 1) + n if c else n)(1)
(lambda c: (n := 1) + n if c else n)(0)
