# Descriptors: what an attribute gives is decided by its class, and one that can be set goes before an object's own.


class Celsius:
    def __get__(self, thermometer, owner):
        return self if thermometer is None else (thermometer.kelvin - 273, owner)

    def __set__(self, thermometer, degrees):
        thermometer.kelvin = degrees + 273


class Thermometer:
    celsius = Celsius()

    def __init__(self, kelvin):
        self.kelvin = kelvin

    @property
    def fahrenheit(self):
        return (self.kelvin - 273) * 9 // 5 + 32

    @fahrenheit.setter
    def fahrenheit(self, degrees):
        self.kelvin = (degrees - 32) * 5 // 9 + 273

    @classmethod
    def freezing(cls):
        return cls(273)


t = Thermometer(300)
t.celsius
t.celsius = 100
t.kelvin
t.fahrenheit
t.fahrenheit = 32
t.celsius
Thermometer.celsius
Thermometer.freezing().kelvin

# Without `__set__` an object's own attribute goes first.
del Celsius.__set__
t.__dict__
t.celsius = "warm"
t.celsius

# A member has a place in the object, and no dict is asked.
class Point:
    __slots__ = ("x", "y")


p = Point()
p.x
p.x = 5
p.x, Point.x
