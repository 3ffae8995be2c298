"""A row of the table: a call of a program, and the files that it is made on."""
import typing


class Row(typing.NamedTuple):
    """A call on a file, whose name in the call begins with `in.`."""

    call: str
    """The program and its words."""
    what: str
    """What the file is."""
    size: int
    """How many items or bytes it has, as its maker counts them."""
    make: typing.Callable
    """The bytes of a file of such a size."""
    status: int = 0
    """How the call ends."""
    beside: dict = {}
    """The makers of files beside it, by their names."""

    def files(self, factor):
        """The names of the files and their bytes, of so many times the size."""
        size = max(int(self.size * factor), 1)
        yield next(word for word in self.call.split() if word.startswith("in.")), self.make(size)
        for name, make in self.beside.items():
            yield name, make(size)

    def takes(self, word):
        """Whether a word stands in what the row is called."""
        return word is None or word in f"{self.call} | {self.what}"
