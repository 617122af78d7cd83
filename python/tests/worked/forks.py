"""Many ifs that leave a body in part."""


def many(a, b):
    x = 0
    if a == 1:
        if b: return "a1"
        x = 1
    if a == 2:
        if b: return "a2"
        x += 2
    if a == 3:
        if b: return "a3"
        x += 3
    if a == 4:
        if b: return "a4"
        x += 4
    if a == 5:
        if b: return "a5"
        x += 5
    if a == 6:
        if b: return "a6"
        x += 6
    if a == 7:
        if b: return "a7"
        x += 7
    if a == 8:
        if b: return "a8"
        x += 8
    if b:
        return
    return x


many(1, 1), many(4, 1), many(8, 1), many(9, 1), many(1, 0), many(5, 0), many(8, 0), many(9, 0)


class A:
    def each(self, n):
        return n

    @property
    def name(self):
        return "A"


class B(A):
    def each(self, n):
        try:
            if n == 0:
                if self: n = 10
                else: return 0
            if n == 1:
                if self: n = 11
                else: return 1
            if n == 2:
                if self: n = 12
                else: return 2
            if n == 3:
                if not self: return 3
                n = 13
            if n == 4:
                if not self: return 4
                n = 14
            if n == 5:
                if not self: return 5
                n = 15
            if n == 6:
                if not self: return 6
                n = 16
            if n == 7:
                if not self: return 7
                n = n.nope
            return super().each(n)
        except AttributeError:
            return "no attribute"


[B().each(n) for n in (0, 1, 2, 3, 4, 5, 6, 7, 8)]


def in_loop(items):
    found = []
    for item in items:
        if item == 1:
            if found: return ("1", found)
            found.append("one")
        if item == 2:
            if found: break
            found.append("two")
        if item == 3:
            if found: return ("3", found)
            found.append("three")
        if item == 4:
            if found: continue
            found.append("four")
        if item == 5:
            if found: return ("5", found)
            found.append("five")
        if item == 6:
            if found: break
            found.append("six")
        if item == 7:
            if found: return ("7", found)
            found.append("seven")
        found.append(item)
    else:
        return ("all", found)
    return found


in_loop([1, 2]), in_loop([3, 4, 4, 5]), in_loop([7, 6, 1]), in_loop([4, 8, 9]), in_loop([])
