"""Printing and formatted strings."""

x, y = 5, "five"
print(x)
print(x, y)
print(x, y, sep="-")
print()
print("tab\tquote\" backslash\\")
f"{x}"
f"{x} is {y!r}, {y!s} and {x + 1}"
f""
f"{{}}"
f"{y}" f"{x}"
f"{x=}"


class Money:
    def __init__(self, cents):
        self.cents = cents

    def __str__(self):
        return f"{self.cents} cents"

    def __repr__(self):
        return f"Money({self.cents})"

    def __format__(self, spec):
        return f"<{spec}>"


m = Money(3)
print(m, [m])
f"{m} {m!s} {m!r} {m:wide}"


def show(value):
    print("showing", value)
    return value


show(1) + show(2)
print(show(3), show(4))
str(m), repr(m)
