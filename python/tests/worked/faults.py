"""Raising with messages, asserting, and catching."""


def told(text):
    return text


raise ValueError("plain")
raise ValueError(told("evaluated"))
raise KeyError(told("a"), told("b"))
raise KeyError from None
assert 1 + 1 == 2
assert told(""), told("message")
assert told("true"), told("never")
try:
    (5).nope
except AttributeError:
    print("attribute")
try:
    print("no fault")
except AttributeError:
    print("never")
else:
    print("else")


def read(o):
    try:
        return o.x
    except AttributeError:
        return "missing"


class X:
    x = 1

    @property
    def bad(self):
        raise ValueError


read(X()), read(5)


def kind(work):
    try:
        work()
    except AttributeError:
        return "attribute"
    except IndexError:
        return "index"
    except TypeError:
        return "type"
    except StopIteration:
        return "stop"
    except Exception:
        return "other"
    else:
        return "none"


def attribute():
    return (5).x


def index():
    return [][0]


def typed():
    return 5 + "a"


def stop():
    return next(iter(()))


def other():
    return 1 // 0


def none():
    pass


kind(attribute), kind(index), kind(typed), kind(stop), kind(other), kind(none)


def only_index(work):
    try:
        work()
    except IndexError:
        return "index"


only_index(index)
only_index(stop)
only_index(other)


def only_type(work):
    try:
        return work()
    except TypeError:
        raise


only_type(typed)
only_type(index)


def changed():
    x = 1
    try:
        x = 2
        (5).nope
        x = 3
    except AttributeError:
        return ("handler sees", x)


changed()


def after():
    try:
        found = (5).nope
    except AttributeError:
        found = None
    return found


after()


def in_loop(items):
    seen = []
    for item in items:
        try:
            if item == "skip":
                continue
            if item == "leave":
                break
            if item == "back":
                return ("back", seen)
            seen.append(item.real)
        except AttributeError:
            seen.append("no")
    return seen


class R:
    real = "yes"


in_loop([R(), 5, "leave", R()]) if False else in_loop([R(), "x", "skip", "leave", R()])
in_loop([R(), "back"])


def nested(o):
    try:
        try:
            return o[0]
        except IndexError:
            return o.missing
    except AttributeError:
        return "both"


nested([]), nested([1])


def handler_raises():
    try:
        (5).nope
    except AttributeError:
        raise KeyError
    except Exception:
        return "not this"


handler_raises()
try:
    total = 5
    total += "a"
except TypeError:
    total = -1
total
try:
    raise ValueError
except Exception:
    print("caught")
try:
    told(1)
    X().bad
except AttributeError:
    print("never")
