"""Functions that see the variables of a function around."""


def adder(n):
    def add(x):
        return x + n

    return add


add5 = adder(5)
add5(1)
adder(1)(1)
add5
add5.__name__


def counter():
    count = 0

    def step():
        nonlocal count
        count += 1
        return count

    return step


step = counter()
step(), step(), step()
counter()()


def logged(function):
    def wrapper(*args):
        return ("logged", function(*args))

    return wrapper


@logged
def double(x):
    return x * 2


double(4)


class Service:
    def __init__(self, name):
        self.name = name

    @logged
    def greet(self, other):
        return self.name + other

    @property
    def shout(self):
        return "shout"

    @staticmethod
    @logged
    def free(x):
        return x

    @classmethod
    @logged
    def make(cls, name):
        return cls(name).name


s = Service("a")
s.greet("b")
Service.greet(s, "c")
Service.free(1), s.free(2)
Service.make("d")


def make_class(base, limit):
    class Limited(base):
        top = limit

        def fits(self, value):
            return value <= limit

        def again(self):
            return Limited

    return Limited


Small = make_class(object, 3)
Small().fits(2), Small().fits(9), Small.top
Small().again() is Small
Small.__qualname__


def composed(f, g):
    return lambda x: f(g(x))


composed(adder(1), adder(10))(100)


def three(a):
    def two(b):
        def one(c):
            return (a, b, c)

        return one

    return two


three(1)(2)(3)


def late():
    def inner():
        return value

    value = "set later"
    return inner()


late()


def unbound():
    def inner():
        return value

    found = inner()
    value = 1
    return found


unbound()


def recursive(n):
    def go(k):
        return 0 if k == 0 else k + go(k - 1)

    return go(n)


recursive(3)


def setter():
    state = []

    def put(x):
        state.append(x)
        return state

    def get():
        return state

    return put, get


put, get = setter()
put(1)
put(2)
get()


def validated(low):
    class Field:
        def __set_name__(self, owner, name):
            self.name = name

        def __set__(self, instance, value):
            if value < low:
                raise ValueError("too low")
            instance.__dict__[self.name] = value

    return Field()


class Item:
    price = validated(1)


item = Item()
item.price = 5
item.price
item.price = 0

total = 0


def add_to_total(x):
    global total
    total += x
    return total


add_to_total(3)
add_to_total(4)
total
[f() for f in [lambda: 1, lambda: 2]]
