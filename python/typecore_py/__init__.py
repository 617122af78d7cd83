"""Python source in front of the machine: reads a file, makes a script of it, runs it and tells the answers."""

__version__ = "0.2"
