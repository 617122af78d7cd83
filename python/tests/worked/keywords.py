"""Parameters by name, by name alone, by place alone, and of any name."""


def f(a, b=2, *, c=3, **kw):
    return a, b, c, kw


f(1)
f(1, c=5)
f(1, b=7, z=9)
f(b=1, a=2)
f()
f(1, 2, 3)
f(1, a=1)
f(1, 2, b=3)


def g(a, b=1, *rest):
    return a, b, rest


g(1, b=5)
g(1, 2, 3)
g(1, 2, b=3)
g(1, q=3)
g(b=1)


class Node:
    def __init__(self, value, left=None, right=None):
        self.value, self.left, self.right = value, left, right

    def depth(self, start=0, *, step=1):
        return start + step + (self.left.depth(step=step) if self.left else 0)

    def __call__(self, *args, **kw):
        return args, kw


n = Node(1, right=Node(2), left=Node(3))
n.right.value, n.left.value
n.depth(), n.depth(5), n.depth(step=2), n.depth(1, step=3)
n.depth(1, 2)
n(1, 2, x=3)
n()
Node(value=5).value
Node(5, other=1)


class Below(Node):
    def __init__(self, value, *args, extra="none", **kw):
        super().__init__(value, *args, **kw)
        self.extra = extra


b = Below(1, Node(2), right=Node(3), extra="some")
b.left.value, b.right.value, b.extra
Below(1).extra


def logged(function):
    def wrapper(*args, **kwargs):
        return "logged", function(*args, **kwargs)

    return wrapper


@logged
def h(x, y=1):
    return x, y


h(1)
h(1, y=5)
h(y=3, x=4)
h(1, z=2)


def p(a, /, b, c=0):
    return a, b, c


p(1, b=2)
p(a=1, b=2)
p(1, 2, 3)


def only(*, key):
    return key


only(key=1)
only()
only(1)


def anything(**kw):
    kw["added"] = 1
    return kw


d = {"b": 3}
anything(**d)
d
anything(**d, c=4)
f(1, **d)
f(1, *(2,), **{"c": 3})
f(1, **{"c": 3}, **{"c": 4})
f(1, **{"x": 3}, b=7, **{"y": 4})
f(1, **5)
(lambda x, y=2: (x, y))(y=1, x=0)
(lambda *, k=5: k)()


def plain(a, b):
    return a, b


plain(b=1, a=2)
plain(1, b=2)
plain(1, c=2)


class Base:
    def __init_subclass__(cls, tag):
        cls.tag = tag


class Tagged(Base, tag="t"):
    pass


Tagged.tag


def outer(n):
    def inner(x=n, *, y=n + 1):
        return x, y

    return inner


outer(3)(), outer(3)(y=1), outer(3)(1, y=2)


def order(a=print("first"), *, b=print("second")):
    return a, b


order()
