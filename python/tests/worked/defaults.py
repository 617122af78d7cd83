"""Default values of parameters."""


def f(a, b=2, c=None):
    return (a, b, c)


f(1)
f(1, 3)
f(1, 3, 4)
f()
f(1, 2, 3, 4)


def all_given(a=1, b="two"):
    return a, b


all_given()
all_given("x")
all_given.__name__


def with_rest(a, b=5, *rest):
    return a, b, rest


with_rest(1)
with_rest(1, 2)
with_rest(1, 2, 3, 4)

# A default value is evaluated once, where the function stands.
start = 10


def late(x=start, y=[]):
    y.append(x)
    return y


start = 20
late()
late()
late(3)
late(3, [])


class Counter:
    step = 2

    def __init__(self, value=0, step=step):
        self.value = value
        self.step = step

    def add(self, by=None):
        if by is None:
            by = self.step
        self.value = self.value + by
        return self.value

    def __repr__(self, prefix="Counter"):
        return prefix + str(self.value)


c = Counter()
c.add()
c.add(5)
repr(c)
Counter(7, 1).add()


class Below(Counter):
    def __init__(self, value=100):
        super().__init__(value)


Below().value
Below(1).add()

g = lambda x, y=1: x + y
g(1)
g(1, 5)


class Field:
    def __set_name__(self, owner, name, extra=None):
        self.name = name

    def __get__(self, instance, owner=None):
        if instance is None:
            return self
        return instance.__dict__.get(self.name, "unset")


class Model:
    title = Field()


Model().title
Model.title.name


def outer(n):
    def inner(x=n, y=n + 1):
        return x + y

    return inner


outer(3)()
outer(3)(10)
outer(3)(10, 20)
