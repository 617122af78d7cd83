"""Builds the program for ./typecore: proved, its crates side by side, or unproved, in a minute or two."""
