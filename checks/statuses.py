"""The statuses of the library for C, and the numbers of types and operators: as crates define them, and what each status says."""
import re
from typing import NamedTuple

from exported import HEADER, plain, read

#: What each status says: one sentence without its dot, about what the caller passed or the container has.
SENTENCES = {
    "Ok": "the call did what it is for",
    "OutOfMemory": "a request for memory was refused",
    "NotInteger": "the array or the type is of booleans, where integers are needed",
    "NegativeValue": "an item is below 0",
    "WidthTooLarge": "a width is too large for the type of the items",
    "AllBlocksNative": "each block needs all bits of the type, so that nothing can be packed",
    "BlockCount": "there is not one width for each block of 1024 items",
    "OffsetTooLarge": "an offset into the first block is not below 1024",
    "LengthOverflow": "there would be more items than a length can count",
    "ValidityLength": "the validity bitmap is too short for the items, or is missing where an item is null",
    "PatchType": "the indices or the chunk offsets of patches are not unsigned without nulls, or their values are of another type",
    "PatchLength": "the indices, values and chunk offsets of patches have lengths that don't fit one another",
    "PatchContent": "the indices of patches don't rise or lie outside of the array, a value is null, or a chunk offset is wrong",
    "PackedLength": "a packed buffer doesn't have the length that its items need",
    "BlockOffsetsType": "block boundaries or run offsets are not unsigned integers without nulls",
    "BlockOffsetsCount": "there is not one more block boundary than blocks, or not one run offset for each chunk",
    "BlockBoundary": "two neighbouring block boundaries enclose no block of any width",
    "BlockSpan": "the block boundaries don't span the packed buffer",
    "TypeMismatch": "two types of items differ that have to be the same",
    "NullReference": "a reference is null",
    "ReferenceCount": "there is not one reference for each chunk",
    "NoMinimum": "a column without an item that is not null has no minimum",
    "ChildNullable": "a child may have nulls where none are allowed",
    "ChildLength": "a child's length is no multiple of 1024, or doesn't fit that of another child",
    "RangeBeyondChild": "the items of the array reach beyond the end of its child",
    "RunIndexType": "the run indices are neither of 8 nor of 16 unsigned bits",
    "RunOffsets": "the run offsets fall, or give a chunk no run or more than 1024",
    "RunIndex": "a run index is not below the number of runs of its chunk",
    "TooManyWidths": "a histogram of widths has more than 255 entries",
    "NotGlobal": "the array has a width for each block, where one for all is needed",
    "IndexOutOfBounds": "an index is not below the number of items",
    "RangeOutOfBounds": "a range reaches beyond the last item, or starts behind its end",
    "MaskLength": "the mask is not as long as the array",
    "CastNull": "an item is null, and the type that is asked for has no nulls",
    "CastOutOfRange": "an item doesn't fit the type that is asked for, or two items differ where a constant is asked for",
    "UnknownId": "the container names an encoding that is not known",
    "BadMetadata": "the metadata of an array in the container are malformed",
    "UnknownType": "the type of items is not known",
    "BufferCount": "an array in the container has more or fewer buffers than its encoding",
    "ChildCount": "an array in the container has more or fewer children than its encoding",
    "ChildMismatch": "a child in the container doesn't have the type or the length that its place needs",
    "BadContainer": "the bytes are no container, or the array is nested too deep for one",
    "NoArray": "there is no array",
    "WrongType": "the items of the array are of another type",
    "WrongLength": "a buffer doesn't have the length that is needed",
    "BadScheme": "the text says no scheme, or nests too deep",
    "BadOperator": "the operator of comparison is not known",
    "BadEncodings": "a bit stands for no encoding",
    "FileTooShort": "the file has fewer bytes than a file of chunks",
    "BadMark": "the file doesn't begin or end as a file of chunks does, or was not finished",
    "BadFootLength": "the foot of the file can't have the length that stands there",
    "BadFootChecksum": "the bytes of the file's foot are not those that its checksum is of",
    "BadField": "a field of the foot is out of its range, or the foot names no type",
    "BadPlace": "a chunk doesn't lie where chunks of the file can lie",
    "BadChunk": "the bytes of a chunk are not those that its checksum is of",
    "FileTooLong": "the file would have 2^63 bytes or more",
    "BadStatistics": "the statistics of a chunk are not those of its items",
    "Stream": "the stream failed",
}
#: The statuses of calls that are written in C.
OF_C = (("Stream", "105"),)
#: The name and the sentence of a number that is no status.
UNKNOWN = ("Unknown", "no status has this number")

REFUSALS = re.compile(r"(?s)pub enum FastLanesError \{(.*?)\n\}")
OF_REFUSAL = re.compile(r"(?m)^    (\w+) = (\d+),")
OF_FAULT = re.compile(r"\bFault::(\w+) => (\d+),")
OF_TYPE = re.compile(r"\bDType::(?:Primitive\(PType::)?(\w+)\b[^\n]* => (\d+),")
OF_NULLABLE = re.compile(r"\bNullability::(Nullable) => kind \+ (\d+),")
OF_OPERATOR = re.compile(r"\b(\d+) => Some\(CompareOperator::(\w+)\),")
ENUM = re.compile(r"\benum\s*\{([^}]*)\}")
ENTRY = re.compile(r"\bFLCOL_(\w+) = (\d+)")


class Status(NamedTuple):
    """A status: its number, its name and its sentence."""

    number: int
    name: str
    sentence: str

    @property
    def macro(self):
        """Its name in C, behind FLCOL_."""
        return in_capitals(self.name)


def in_capitals(name):
    """A name as C has it: OUT_OF_MEMORY."""
    return re.sub(r"(?<=[a-z])(?=[A-Z])", "_", name).upper()


def statuses():
    """All statuses, by their numbers."""
    refusals = OF_REFUSAL.findall(REFUSALS.search(read("crates/fl_types/src/error.rt"))[1])
    faults = OF_FAULT.findall(read("crates/flcol_c/src/fault.rt"))
    found = sorted((int(number), name) for name, number in [("Ok", "0"), *refusals, *faults, *OF_C])
    lacking = {name for _, name in found} ^ {*SENTENCES}
    if lacking or len({number for number, _ in found}) < len(found):
        raise ValueError(f"not one sentence and one number for each status: {', '.join(sorted(lacking)) or found}")
    return [Status(number, name, SENTENCES[name]) for number, name in found]


def types():
    """The names of types in C and their numbers."""
    text = read("crates/flcol_c/src/looks.rt")
    return [(in_capitals(name), int(number)) for name, number in OF_TYPE.findall(text) + OF_NULLABLE.findall(text)]


def operators():
    """The names of operators in C and their numbers."""
    return [(in_capitals(name), int(number)) for number, name in OF_OPERATOR.findall(read("crates/flcol_c/src/answering.rt"))]


def declared_numbers(first):
    """The names and numbers of the header's enum that has a name as its first, which stands for 0."""
    entries = (ENTRY.findall(it) for it in ENUM.findall(plain(read(HEADER))))
    return next(([(name, int(number)) for name, number in it] for it in entries if it[:1] == [(first, "0")]), [])
