class Money:
    def __init__(self, cents):
        self.cents = cents

    def __add__(self, other):
        return Money(self.cents + other.cents)


class Euro(Money):
    def __radd__(self, other):
        return "in euros"


(Money(3) + Money(4)).cents
Money(3) + Euro(4)
