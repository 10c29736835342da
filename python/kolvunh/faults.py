"""What a function of this package raises where a file, a call or a program is not as it has to be."""


class Fault(Exception):
    """What is wrong, in one line: the file's name, then its line or row, then what is there and what is wanted."""
