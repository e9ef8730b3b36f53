/* The names of the statuses, and what each says. Written by tools/interface. */
#include "flcol.h"

struct status {
    int32_t number;
    const char *name, *message;
};

static const struct status statuses[] = {
    {FLCOL_OK, "Ok", "the call did what it is for"},
    {FLCOL_OUT_OF_MEMORY, "OutOfMemory", "a request for memory was refused"},
    {FLCOL_NOT_INTEGER, "NotInteger", "the array or the type is of booleans, where integers are needed"},
    {FLCOL_NEGATIVE_VALUE, "NegativeValue", "an item is below 0"},
    {FLCOL_WIDTH_TOO_LARGE, "WidthTooLarge", "a width is too large for the type of the items"},
    {FLCOL_ALL_BLOCKS_NATIVE, "AllBlocksNative", "each block needs all bits of the type, so that nothing can be packed"},
    {FLCOL_BLOCK_COUNT, "BlockCount", "there is not one width for each block of 1024 items"},
    {FLCOL_OFFSET_TOO_LARGE, "OffsetTooLarge", "an offset into the first block is not below 1024"},
    {FLCOL_LENGTH_OVERFLOW, "LengthOverflow", "there would be more items than a length can count"},
    {FLCOL_VALIDITY_LENGTH, "ValidityLength", "the validity bitmap is too short for the items, or is missing where an item is null"},
    {FLCOL_PATCH_TYPE, "PatchType", "the indices or the chunk offsets of patches are not unsigned without nulls, or their values are of another type"},
    {FLCOL_PATCH_LENGTH, "PatchLength", "the indices, values and chunk offsets of patches have lengths that don't fit one another"},
    {FLCOL_PATCH_CONTENT, "PatchContent", "the indices of patches don't rise or lie outside of the array, a value is null, or a chunk offset is wrong"},
    {FLCOL_PACKED_LENGTH, "PackedLength", "a packed buffer doesn't have the length that its items need"},
    {FLCOL_BLOCK_OFFSETS_TYPE, "BlockOffsetsType", "block boundaries or run offsets are not unsigned integers without nulls"},
    {FLCOL_BLOCK_OFFSETS_COUNT, "BlockOffsetsCount", "there is not one more block boundary than blocks, or not one run offset for each chunk"},
    {FLCOL_BLOCK_BOUNDARY, "BlockBoundary", "two neighbouring block boundaries enclose no block of any width"},
    {FLCOL_BLOCK_SPAN, "BlockSpan", "the block boundaries don't span the packed buffer"},
    {FLCOL_TYPE_MISMATCH, "TypeMismatch", "two types of items differ that have to be the same"},
    {FLCOL_NULL_REFERENCE, "NullReference", "a reference is null"},
    {FLCOL_REFERENCE_COUNT, "ReferenceCount", "there is not one reference for each chunk"},
    {FLCOL_NO_MINIMUM, "NoMinimum", "a column without an item that is not null has no minimum"},
    {FLCOL_CHILD_NULLABLE, "ChildNullable", "a child may have nulls where none are allowed"},
    {FLCOL_CHILD_LENGTH, "ChildLength", "a child's length is no multiple of 1024, or doesn't fit that of another child"},
    {FLCOL_RANGE_BEYOND_CHILD, "RangeBeyondChild", "the items of the array reach beyond the end of its child"},
    {FLCOL_RUN_INDEX_TYPE, "RunIndexType", "the run indices are neither of 8 nor of 16 unsigned bits"},
    {FLCOL_RUN_OFFSETS, "RunOffsets", "the run offsets fall, or give a chunk no run or more than 1024"},
    {FLCOL_RUN_INDEX, "RunIndex", "a run index is not below the number of runs of its chunk"},
    {FLCOL_TOO_MANY_WIDTHS, "TooManyWidths", "a histogram of widths has more than 255 entries"},
    {FLCOL_NOT_GLOBAL, "NotGlobal", "the array has a width for each block, where one for all is needed"},
    {FLCOL_INDEX_OUT_OF_BOUNDS, "IndexOutOfBounds", "an index is not below the number of items"},
    {FLCOL_RANGE_OUT_OF_BOUNDS, "RangeOutOfBounds", "a range reaches beyond the last item, or starts behind its end"},
    {FLCOL_MASK_LENGTH, "MaskLength", "the mask is not as long as the array"},
    {FLCOL_CAST_NULL, "CastNull", "an item is null, and the type that is asked for has no nulls"},
    {FLCOL_CAST_OUT_OF_RANGE, "CastOutOfRange", "an item doesn't fit the type that is asked for, or two items differ where a constant is asked for"},
    {FLCOL_UNKNOWN_ID, "UnknownId", "the container names an encoding that is not known"},
    {FLCOL_BAD_METADATA, "BadMetadata", "the metadata of an array in the container are malformed"},
    {FLCOL_UNKNOWN_TYPE, "UnknownType", "the type of items is not known"},
    {FLCOL_BUFFER_COUNT, "BufferCount", "an array in the container has more or fewer buffers than its encoding"},
    {FLCOL_CHILD_COUNT, "ChildCount", "an array in the container has more or fewer children than its encoding"},
    {FLCOL_CHILD_MISMATCH, "ChildMismatch", "a child in the container doesn't have the type or the length that its place needs"},
    {FLCOL_BAD_CONTAINER, "BadContainer", "the bytes are no container, or the array is nested too deep for one"},
    {FLCOL_NO_ARRAY, "NoArray", "there is no array"},
    {FLCOL_WRONG_TYPE, "WrongType", "the items of the array are of another type"},
    {FLCOL_WRONG_LENGTH, "WrongLength", "a buffer doesn't have the length that is needed"},
    {FLCOL_BAD_SCHEME, "BadScheme", "the text says no scheme, or nests too deep"},
    {FLCOL_BAD_OPERATOR, "BadOperator", "the operator of comparison is not known"},
    {FLCOL_STREAM, "Stream", "the stream failed"},
    {FLCOL_BAD_ENCODINGS, "BadEncodings", "a bit stands for no encoding"},
    {FLCOL_FILE_TOO_SHORT, "FileTooShort", "the file has fewer bytes than a file of chunks"},
    {FLCOL_BAD_MARK, "BadMark", "the file doesn't begin or end as a file of chunks does, or was not finished"},
    {FLCOL_BAD_FOOT_LENGTH, "BadFootLength", "the foot of the file can't have the length that stands there"},
    {FLCOL_BAD_FOOT_CHECKSUM, "BadFootChecksum", "the bytes of the file's foot are not those that its checksum is of"},
    {FLCOL_BAD_FIELD, "BadField", "a field of the foot is out of its range, or the foot names no type"},
    {FLCOL_BAD_PLACE, "BadPlace", "a chunk doesn't lie where chunks of the file can lie"},
    {FLCOL_BAD_CHUNK, "BadChunk", "the bytes of a chunk are not those that its checksum is of"},
    {FLCOL_FILE_TOO_LONG, "FileTooLong", "the file would have 2^63 bytes or more"},
    {FLCOL_BAD_STATISTICS, "BadStatistics", "the statistics of a chunk are not those of its items"},
};

static const struct status unknown = {-1, "Unknown", "no status has this number"};

static const struct status *status_of(int32_t number) {
    for (size_t i = 0; i < sizeof statuses / sizeof statuses[0]; i++) {
        if (statuses[i].number == number) return &statuses[i];
    }
    return &unknown;
}

const char *flcol_status_name(int32_t status) {
    return status_of(status)->name;
}

const char *flcol_status_message(int32_t status) {
    return status_of(status)->message;
}
