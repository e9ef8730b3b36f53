/* Includes the file OF_TYPE once for each type of items, with TYPE as its name, ITEM as C's type, and NUMBER. In it FN(name) is
   the function `name` of the type, CALL(name) the call of flcol.h. */
#define JOIN(left, right) left##_##right
#define JOINED(left, right) JOIN(left, right)
#define FN(name) JOINED(name, TYPE)
#define CALL(name) JOINED(flcol_##name, TYPE)

#define TYPE u8
#define ITEM uint8_t
#define NUMBER FLCOL_U8
#include OF_TYPE
#undef TYPE
#undef ITEM
#undef NUMBER
#define TYPE u16
#define ITEM uint16_t
#define NUMBER FLCOL_U16
#include OF_TYPE
#undef TYPE
#undef ITEM
#undef NUMBER
#define TYPE u32
#define ITEM uint32_t
#define NUMBER FLCOL_U32
#include OF_TYPE
#undef TYPE
#undef ITEM
#undef NUMBER
#define TYPE u64
#define ITEM uint64_t
#define NUMBER FLCOL_U64
#include OF_TYPE
#undef TYPE
#undef ITEM
#undef NUMBER
#ifndef UNSIGNED_ONLY
#define TYPE i8
#define ITEM int8_t
#define NUMBER FLCOL_I8
#include OF_TYPE
#undef TYPE
#undef ITEM
#undef NUMBER
#define TYPE i16
#define ITEM int16_t
#define NUMBER FLCOL_I16
#include OF_TYPE
#undef TYPE
#undef ITEM
#undef NUMBER
#define TYPE i32
#define ITEM int32_t
#define NUMBER FLCOL_I32
#include OF_TYPE
#undef TYPE
#undef ITEM
#undef NUMBER
#define TYPE i64
#define ITEM int64_t
#define NUMBER FLCOL_I64
#include OF_TYPE
#undef TYPE
#undef ITEM
#undef NUMBER
#endif
