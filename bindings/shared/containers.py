"""Containers by docs/CONTAINER.md, made here byte by byte, and what strangers make of them."""
import random

TYPES = ("u8", "u16", "u32", "u64", "i8", "i16", "i32", "i64")
NULLABLE = 16


def bytes_of(type_name):
    return int(type_name[1:]) // 8


def bounds(type_name):
    """The least and the greatest integer of a type."""
    bits = int(type_name[1:])
    return (0, 2**bits - 1) if type_name[0] == "u" else (-(2 ** (bits - 1)), 2 ** (bits - 1) - 1)


def number(value, size):
    return value.to_bytes(size, "little")


def node(name, dtype, length, metadata=b"", buffers=(), children=()):
    head = bytes([len(name)]) + name.encode("ascii") + bytes([dtype]) + number(length, 8)
    parts = [head, number(len(metadata), 4), metadata, bytes([len(buffers)])]
    parts += [number(len(it), 8) + it for it in buffers] + [bytes([len(children)])]
    return b"".join(parts + [number(len(it), 8) + it for it in children])


def bits(flags):
    """A bit for each flag, the lowest first."""
    return bytes(sum(bool(flag) << at for at, flag in enumerate(flags[start : start + 8])) for start in range(0, len(flags), 8))


def bools(flags):
    return node("vortex.bool", 8, len(flags), buffers=[bits(flags)])


def plain_node(type_name, items, is_nullable=False):
    dtype = TYPES.index(type_name) + (NULLABLE if is_nullable or None in items else 0)
    values = b"".join((item or 0).to_bytes(bytes_of(type_name), "little", signed=type_name[0] == "i") for item in items)
    validity = [bools([item is not None for item in items])] if None in items else []
    return node("vortex.primitive", dtype, len(items), buffers=[values], children=validity)


def plain(type_name, items, is_nullable=False):
    """The container of a plain column; None is a null."""
    return b"FLC1" + plain_node(type_name, items, is_nullable)


def constant(type_name, value, length):
    """The container of the same item any number of times."""
    signed = type_name[0] == "i"
    shown = (2 * value if value >= 0 else -2 * value - 1) if signed else value
    metadata = bytes([24 if signed else 32]) + varint(shown)
    return b"FLC1" + node("vortex.constant", TYPES.index(type_name), length, metadata)


def varint(value):
    groups = []
    while value > 127:
        groups.append(value % 128 + 128)
        value //= 128
    return bytes(groups + [value])


# 1, 2, 3 of docs/CONTAINER.md: bit-packed at width 2, and with a boundary for each block.
_BLOCK = bytes([1, 0, 0, 0, 2, 0, 0, 0, 3, 0, 0, 0]) + bytes(244)
_ENDS = node("vortex.primitive", 1, 2, buffers=[bytes([0, 0, 0, 1])])
PACKED = b"FLC1" + node("fastlanes.bitpacked", 2, 3, bytes([8, 2]), [_BLOCK])
BLOCKED = b"FLC1" + node("fastlanes.bitpacked.v2", 2, 3, bytes([0x10, 1]), [_BLOCK], [_ENDS])
# 101, 102, 103 and a null, as differences to 100.
_DIFFERENCES = node("fastlanes.bitpacked", 2 + NULLABLE, 4, bytes([8, 2]), [_BLOCK], [bools([1, 1, 1, 0])])
FRAMED = b"FLC1" + node("fastlanes.for", 2 + NULLABLE, 4, bytes([32, 100]), [], [_DIFFERENCES])
assert (len(PACKED), len(BLOCKED)) == (305, 360)

WORKED = {
    "packed": (PACKED, [1, 2, 3]),
    "blocked": (BLOCKED, [1, 2, 3]),
    "framed": (FRAMED, [101, 102, 103, None]),
    "plain": (plain("i16", [-5, None, 7]), [-5, None, 7]),
    "constant": (constant("i64", -1, 3), [-1, -1, -1]),
}


def cuts(container):
    """Each beginning of a container."""
    return [container[:length] for length in range(len(container))]


def changes(container, seed=1):
    """A container with each of its bytes changed: all bits of it turned, one more than it was, and a random one."""
    chance = random.Random(seed)
    for at, byte in enumerate(container):
        for changed in {byte ^ 255, (byte + 1) % 256, chance.randrange(256)} - {byte}:
            yield container[:at] + bytes([changed]) + container[at + 1 :]


def random_columns(seed=1):
    """Columns of 64 bits that differ in their lengths, their values and their nulls."""
    chance = random.Random(seed)
    kinds = {
        "small": lambda at: chance.randrange(1000),
        "below zero": lambda at: chance.randrange(-500, 500),
        "any": lambda at: chance.randrange(-(2**63), 2**63),
        "rising": lambda at: 1_700_000_000 + 37 * at + chance.randrange(30),
        "runs": lambda at: at // 50 % 7,
        "rare": lambda at: chance.randrange(8) if at % 97 else 2**40 + at,
        "same": lambda at: -3,
    }
    for kind, value in kinds.items():
        for length in (1, 7, 1023, 1024, 1025, 3000):
            for nulls in (0, 0.2):
                yield kind, [None if chance.random() < nulls else value(at) for at in range(length)]
    yield "null", [None] * 1500
    yield "long", [None if at % 1000 == 5 else at % 4096 for at in range(150_000)]


# ---- Files of chunks, by docs/FILE.md ----

FILE_MARK = b"FLC2"
WORDS = ("offset", "size", "checksum", "len", "null_count", "sorted")
INTEGERS = ("least", "greatest", "sum")


def crc32c(data):
    """The CRC-32C, bit by bit but for a table of bytes."""
    value = 2**32 - 1
    for byte in data:
        value = value >> 8 ^ _TABLE[(value ^ byte) & 255]
    return value ^ 2**32 - 1


def _remainder(byte):
    for _ in range(8):
        byte = byte >> 1 ^ 0x82F63B78 * (byte & 1)
    return byte


_TABLE = [_remainder(byte) for byte in range(256)]


def statistics(items):
    """What the foot says of a chunk's items, but where it lies."""
    valid = [it for it in items if it is not None]
    ordered = [-(2**64) if it is None else it for it in items]
    least, greatest = (min(valid), max(valid)) if valid else (0, 0)
    return {"len": len(items), "null_count": len(items) - len(valid), "sorted": int(ordered == sorted(ordered)), "least": least,
            "greatest": greatest, "sum": sum(valid)}  # fmt: skip


def foot(dtype, entries):
    """The end of a file: a body with these entries, and what stands behind it."""
    words = [b"".join(number(it[name], 8) for name in WORDS) for it in entries]
    integers = [b"".join(it[name].to_bytes(16, "little", signed=True) for name in INTEGERS) for it in entries]
    body = number(dtype, 8) + b"".join(word + integer for word, integer in zip(words, integers))
    return body + number(crc32c(body), 8) + number(len(body) + 8, 8) + FILE_MARK


def chunk_file(type_name, parts, encode=None, changed=lambda entries: entries, is_nullable=None):
    """A file of these parts of a column; `changed` may change what the foot says of them."""
    data, entries = FILE_MARK, []
    if is_nullable is None:
        is_nullable = any(None in items for items in parts)
    for items in parts:
        blob = encode(type_name, items) if encode else plain(type_name, items, is_nullable)
        data += bytes(-len(data) % 64)
        entries.append({"offset": len(data), "size": len(blob), "checksum": crc32c(blob), **statistics(items)})
        data += blob
    end = foot(TYPES.index(type_name) + NULLABLE * is_nullable, changed(entries))
    return data + bytes(-(len(data) + len(end)) % 64) + end


def one_changed(at, **fields):
    """For `changed`: other fields of one entry."""
    return lambda entries: [{**it, **fields} if i == at else it for i, it in enumerate(entries)]


def bad_feet():
    """Files with right checksums whose feet say what can't be, or is not so, each with the name of its refusal."""
    parts = [[1, 2, 3], [4, None, 6], [7, 8]]
    of = lambda changed: chunk_file("i32", parts, changed=changed)  # noqa: E731
    yield "a chunk beyond the file", "BadPlace", of(one_changed(2, offset=2**20))
    yield "a chunk that ends in the foot", "BadPlace", of(one_changed(2, size=400))
    yield "chunks that overlap", "BadPlace", of(one_changed(1, offset=64))
    yield "a chunk in the mark", "BadPlace", of(one_changed(0, offset=0))
    yield "no multiple of 64", "BadPlace", of(one_changed(0, offset=65))
    yield "an end that wraps", "BadPlace", of(one_changed(2, size=2**64 - 64))
    yield "a place that wraps", "BadPlace", of(one_changed(2, offset=2**64 - 64, size=128))
    yield "a length of 2^63", "BadField", of(one_changed(0, len=2**63))
    yield "lengths that overflow", "LengthOverflow", of(lambda entries: [{**it, "len": 2**63 - 1} for it in entries])
    yield "more nulls than items", "BadField", of(one_changed(1, null_count=4))
    yield "a sorted of 2", "BadField", of(one_changed(1, sorted=2))
    yield "a least above the greatest", "BadField", of(one_changed(0, least=9))
    yield "a least of no i32", "BadField", of(one_changed(0, least=-(2**31) - 1))
    yield "a greatest of no i32", "BadField", of(one_changed(0, greatest=2**31))
    yield "a checksum of 33 bits", "BadField", of(one_changed(0, checksum=2**32))
    yield "a type that isn't", "BadField", FILE_MARK + bytes(36) + foot(9, [])
    yield "many chunks in few bytes", "BadFootLength", FILE_MARK + bytes(40) + number(16 + 96 * 2**50, 8) + FILE_MARK
    yield "2^57 chunks", "BadFootLength", FILE_MARK + bytes(40) + number(16 + 96 * 2**57, 8) + FILE_MARK
    yield "2^60 chunks, a length that wraps", "BadFootChecksum", FILE_MARK + bytes(40) + number((16 + 96 * 2**60) % 2**64, 8) + FILE_MARK
    yield "a length of 15", "BadFootLength", FILE_MARK + bytes(40) + number(15, 8) + FILE_MARK
    yield "no bytes", "FileTooShort", b""
    yield "few bytes", "FileTooShort", FILE_MARK * 6
    yield "no mark at the beginning", "BadMark", b"FLC1" + of(lambda entries: entries)[4:]
    yield "no mark at the end", "BadMark", of(lambda entries: entries)[:-1] + b"1"


def bad_chunks():
    """Files with sound feet whose chunks are others than they say, each with the name of its refusal where they are read."""
    parts = [[1, 2, 3], [4, None, 6], [7, 8]]
    of = lambda **how: chunk_file("i32", parts, **how)  # noqa: E731
    yield "another checksum", "BadChunk", of(changed=one_changed(1, checksum=7))
    yield "another place", "BadChunk", of(changed=one_changed(0, size=1))
    yield "no container", "BadContainer", of(encode=lambda name, items: b"a chunk")
    yield "another type", "BadStatistics", of(encode=lambda name, items: plain("i64", items))
    yield "booleans", "NotInteger", of(encode=lambda name, items: b"FLC1" + bools([1] * len(items)))
    yield "fewer items", "BadStatistics", of(changed=one_changed(2, len=9))
    yield "more items", "BadStatistics", of(changed=one_changed(2, len=1))
    many = [[3] * 5]
    yield "many items in few bytes", "BadStatistics", chunk_file("u8", many, encode=lambda name, items: constant(name, 3, 2**28))
    yield "too many items", "LengthOverflow", chunk_file("u8", many, encode=lambda name, items: constant(name, 3, 2**28 + 1))
    yield "2^60 items", "LengthOverflow", chunk_file("u8", many, encode=lambda name, items: constant(name, 3, 2**60), changed=one_changed(0, len=2**60, sum=3 * 2**60))


def false_statistics():
    """Files that verification alone refuses."""
    parts = [[1, 2, 3], [4, None, 6], [7, 8]]
    for fields in ({"least": 2}, {"greatest": 2}, {"sum": 5}, {"null_count": 1}, {"sorted": 0}):
        yield chunk_file("i32", parts, changed=one_changed(0, **fields))


def random_files(seed=1):
    """Files that differ in their types, their chunks and their nulls, with their items."""
    chance = random.Random(seed)
    for name in TYPES:
        least, greatest = bounds(name)
        least, greatest = max(least, -(2**63)), min(greatest, 2**63 - 1)
        for lengths in ((), (0, 3), (5, 0, 1030, 7), (70_000, 3))[: 4 if name == "i16" else 3]:
            for nulls in (0, 0.2, 1) if max(lengths, default=0) < 2000 else (0.2,):
                middles = sorted(chance.randint(least, greatest) for _ in lengths)
                parts = [[None if chance.random() < nulls else min(max(middle + chance.randrange(-50, 50), least), greatest) for _ in range(length)]
                         for middle, length in zip(middles, lengths)]  # fmt: skip
                yield chunk_file(name, parts, is_nullable=nulls > 0), [it for items in parts for it in items]
