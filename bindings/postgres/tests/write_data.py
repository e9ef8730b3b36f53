"""Writes what the tests load: FOLDER/plain has k, i and x of random columns, FOLDER/hostile a name and bytes, and
FOLDER/refused a column in PostgreSQL's binary format of COPY whose value is no container. Of files of chunks FOLDER/file_K are
random ones, FOLDER/filed has k, idx and value of their items, FOLDER/hostile_files a name, the refusal, and bytes; FOLDER/west
and FOLDER/east are two halves of a column of rising items, each with a chunk that can't be read, FOLDER/many has 40 chunks of
100,000 items, and FOLDER/endless a thousand of 2^28 threes."""
import pathlib
import struct
import sys

sys.path.insert(0, str(pathlib.Path(__file__).resolve().parent.parent.parent / "shared"))
import containers  # noqa: E402


def text(value):
    return "\\N" if value is None else str(value)


def hostile():
    for name, (blob, _) in containers.WORKED.items():
        yield name, "whole", blob
        yield from ((name, "cut", it) for it in containers.cuts(blob))
        yield from ((name, "changed", it) for it in containers.changes(blob))


def binary_copy(blob):
    return b"PGCOPY\n\xff\r\n\0" + struct.pack(">iihi", 0, 0, 1, len(blob)) + blob + struct.pack(">h", -1)


def hostile_files():
    whole = containers.chunk_file("i16", [[1, 2, 3], [40, None]])
    yield from containers.bad_feet()
    yield from ((f"chunks: {name}", refusal, it) for name, refusal, it in containers.bad_chunks())
    yield from (("cut", "(FileTooShort|BadMark|BadFootLength|BadFootChecksum)", it) for it in containers.cuts(whole))
    yield from (("changed", "[A-Z][A-Za-z]+", it) for it in containers.changes(whole))
    yield from (("false", "BadStatistics", it) for it in containers.false_statistics())


def half(begin, unread):
    """20 chunks of a thousand rising items, of which one has another checksum."""
    parts = [list(range(at, at + 1000)) for at in range(begin, begin + 20_000, 1000)]
    return containers.chunk_file("u32", parts, changed=containers.one_changed(unread, checksum=1))


def equal_items(numbers, length, **said):
    """Chunks in few bytes, each so many times a number."""
    says = lambda entries: [{**it, "len": length, "sum": it["least"] * length, **said} for it in entries]  # noqa: E731
    return containers.chunk_file("u8", [[it] for it in numbers], lambda name, items: containers.constant(name, *items, length), says)


folder = pathlib.Path(sys.argv[1])
with open(folder / "plain", "w") as file:
    for k, (_, items) in enumerate(containers.random_columns(seed=3)):
        file.writelines(f"{k}\t{i}\t{text(item)}\n" for i, item in enumerate(items))
with open(folder / "hostile", "w") as file:
    file.writelines(f"{name}\t{how}\t\\\\x{blob.hex()}\n" for name, how, blob in hostile())
(folder / "refused").write_bytes(binary_copy(containers.PACKED[:200]))
(folder / "accepted").write_bytes(binary_copy(containers.PACKED))
with open(folder / "filed", "w") as file:
    for k, (data, items) in enumerate(containers.random_files(seed=4)):
        (folder / f"file_{k}").write_bytes(data)
        file.writelines(f"{k}\t{i}\t{text(item)}\n" for i, item in enumerate(items))
with open(folder / "hostile_files", "w") as file:
    file.writelines(f"{name}\t{refusal}\t\\\\x{blob.hex()}\n" for name, refusal, blob in hostile_files())
(folder / "west").write_bytes(half(0, unread=0))
(folder / "east").write_bytes(half(20_000, unread=19))
(folder / "many").write_bytes(equal_items(range(40), 100_000))
(folder / "endless").write_bytes(equal_items([3] * 1000, 2**28, least=0, greatest=255))
