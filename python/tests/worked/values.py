"""Functions that are built in, as values."""

size = len
size("abc")
f = repr
f([1])
f
[abs, hash][0](-5)


def apply(function, value):
    return function(value)


apply(len, (1, 2))
apply(callable, apply)


class Sized:
    length = len
    text = repr

    def __len__(self):
        return 7


Sized().length([1, 2])
Sized.length(Sized())
len.__name__
isinstance(5, int), issubclass(bool, int)
check = isinstance
check(True, int)
