# A class with __slots__ gives its objects no dict: they have the attributes that it names, and no others.


class Point:
    __slots__ = ("x", "y")

    def __init__(self, x, y):
        self.x = x
        self.y = y


p = Point(3, 4)
p.x = 5
p.x, p.y

# There is no place for another attribute, and no dict.
p.name = "p"
p.name
p.__dict__
hasattr(p, "x"), hasattr(p, "name"), hasattr(p, "__dict__")

# What the class itself has is read as ever, but nothing stands in its way.
Point.name = "a point"
p.name
p.name = "p"

# A class below without __slots__ brings a dict beside the places.


class Named(Point):
    pass


n = Named(1, 2)
n.name = "n"
n.x, n.name, n.__dict__

# So does one whose __slots__ name it, and no other.


class Marked(Point):
    __slots__ = ("mark", "__dict__")


class Placed(Point):
    __slots__ = "place"


m = Marked(1, 2)
m.mark = "m"
m.note = "in the dict"
m.x, m.mark, m.__dict__

q = Placed(1, 2)
q.place = "here"
q.x, q.place
q.note = "nowhere"

# What a base brings, a class with __slots__ doesn't take away.


class Kept(Named):
    __slots__ = ()


k = Kept(5, 6)
k.note = "kept"
k.__dict__

# Of several bases one is enough.


class Empty:
    __slots__ = ()


class Plain:
    pass


class Both(Empty, Plain):
    __slots__ = ()


class Neither(Empty):
    __slots__ = ()


b = Both()
b.note = 1
b.__dict__
Neither().note = 1

# What an object has is there to stay: no other class, and no other bases, that would give it a dict or take it.
e = Empty()
e.__class__ = Plain
Plain().__class__ = Empty
q.__class__ = Named
Neither.__bases__ = (Plain,)
Kept.__bases__ = (Point,)
Neither.__bases__, Kept.__bases__, type(e)

# These leave it as it is.


class Other(Empty):
    __slots__ = ()


class Named2(Point):
    pass


e.__class__ = Neither
e.note = 1
k.__class__ = Named
k.note
Neither.__bases__ = (Other,)
Kept.__bases__ = (Named2,)
Neither.__mro__, Kept.__mro__

# What counts are the __slots__ that the class was made with.
Plain.__slots__ = ()
Plain().note = 1
del Empty.__slots__
Empty().note = 1

# A namespace can be handed over too.
Made = type("Made", (), {"__slots__": "only"})
made = Made()
made.only = 1
made.other = 2
