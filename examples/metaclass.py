# A metaclass makes the class, is told of it, and says what a call of it means.


class Meta(type):
    def __new__(meta, name, bases, namespace, tag):
        cls = super().__new__(meta, name, bases, namespace)
        cls.tag = tag
        return cls

    def __init__(cls, name, bases, namespace, tag):
        cls.line = (tag, cls.tag)

    def __call__(cls, argument):
        if argument is None:
            return super().__call__()
        return ("not made", cls, argument)

    def __add__(cls, other):
        return (cls, other)


class Plugin(metaclass=Meta, tag="first"):
    kind = 1


class Reader(Plugin, tag="second"):
    kind = Plugin.kind + 1


Plugin.line, Reader.line
Plugin(5)
Reader(None).kind
Plugin + 1
Plugin() + 1

# The class of the first base makes the class, and wants its keyword.
class Writer(Plugin):
    pass


# A metaclass of a second base has to agree with that of the first.
class Other(type):
    pass


class Both(Plugin, metaclass=Other, tag="third"):
    pass


# What tells an attribute its name, and what is told of each class below.
class Field:
    def __set_name__(self, owner, name):
        self.place = (owner, name)


class Registry:
    classes = ()

    def __init_subclass__(cls, order):
        Registry.classes = (Registry.classes, cls, order)


class First(Registry, order=1):
    width = Field()


First.width.place
Registry.classes
