"""What a caller keeps between calls: 64-bit cells that the engine reads and writes, and that can be stored."""
from .engine import MOST_64_BIT


class Kept:
    """Cells between calls. A class of its own says which array they are in `_Cells`, and what they are in `_WHAT`. A copy, also one
    that was pickled, has cells of its own."""

    __slots__ = ("_cells",)

    @classmethod
    def from_cells(cls, cells):
        """The one that stored cells are."""
        cells = tuple(cells)
        length = cls._Cells._length_
        if len(cells) != length or not all(0 <= cell <= MOST_64_BIT for cell in cells):
            raise ValueError(f"{cls._WHAT} is {length} numbers of 64 bits")
        kept = cls.__new__(cls)
        kept._cells = cls._Cells(*cells)
        return kept

    @property
    def cells(self):
        """The cells, to store."""
        return tuple(self._cells)

    def __reduce__(self):
        return type(self).from_cells, (self.cells,)
