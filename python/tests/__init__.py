"""Tests of Python in front of the machine: `cd python && python3 -m unittest`."""
