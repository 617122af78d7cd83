# `super` looks past the class that a function was made in, along the linearisation of the object's class.


class Base:
    limit = 10

    @classmethod
    def make(cls):
        return ("Base", cls)

    @staticmethod
    def help():
        return "help of Base"

    @property
    def size(self):
        return 1

    def __add__(self, other):
        return ("Base", other)


class Middle(Base):
    limit = 20

    @classmethod
    def make(cls):
        return ("Middle", super().make())

    @property
    def size(self):
        return super().size + 1

    def __add__(self, other):
        return ("Middle", super().__add__(other))

    def limits(self):
        return (self.limit, super().limit, super(Middle, self).limit)


class Mixin(Base):
    limit = 30

    def __add__(self, other):
        return ("Mixin", super().__add__(other))


class Both(Middle, Mixin):
    pass


Both().limits()
Middle().limits()
Both.make()
Both().size
Both() + 1
super(Middle, Both()).limit
super(Middle, Both).make()
super(Middle, 5)
super(Both, Both()).help()

# A function keeps the class that it was made in.
class Far:
    add = Middle.__add__


Far().add(1)
