"""What the tool ends with: each has a status."""


class Fault(Exception):
    """Something that ends a command. `line` is where in the file, if anywhere."""

    status = 1

    def __init__(self, reason, line=None):
        super().__init__(reason)
        self.line = line


class BadInput(Fault):
    """A file or an argument that is not what it should be."""

    status = 2


class NoAnswer(Fault):
    """A run that gave no answer."""


class NotCovered(Fault):
    """A run about which the table from distances says nothing."""

    status = 3
