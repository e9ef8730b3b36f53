"""Columns of nullable integers in light encodings, over a proved library.

>>> import flcol
>>> a = flcol.array([7, None, 9, -2], dtype="int32").encode("for(bitpacked:4)")
>>> a[2], a[1], len(a), a.dtype
(9, None, 4, 'int32?')
>>> a[a > 0].to_list()
[7, 9]
>>> flcol.frombytes(bytes(a)).to_list()
[7, None, 9, -2]

Types have NumPy's names, ``uint8`` to ``uint64``, ``int8`` to ``int64`` and ``bool``, with a ``?`` behind where items may be
null.
"""
from ._array import Array, frombytes
from ._bools import BoolArray
from ._chunks import Chunk
from ._file import File, open
from ._interface import VERSION as __version__
from ._library import Error
from ._making import array, constant
from ._writer import Writer

__all__ = ["Array", "BoolArray", "Chunk", "Error", "File", "Writer", "__version__", "array", "constant", "frombytes", "open"]
