/* Columns that are kept: one item, items in their order, what is gathered from all items. */
#include "column.h"

#include <stdio.h>
#include <string.h>

void refusal_text(int32_t status, char text[REFUSAL_TEXT]) {
    snprintf(text, REFUSAL_TEXT, "flcol: %s: %s", flcol_status_name(status), flcol_status_message(status));
}

static size_t smaller(size_t a, size_t b) {
    return a < b ? a : b;
}

/* The bytes of a bitmap. */
static size_t bitmap_bytes(size_t len) {
    return (len + 7) / 8;
}

/* ---- The eight types ---- */

/* The calls of flcol.h that have a type in their names, with integers of 64 bits in place of its own. */
struct integer_type {
    int64_t least;
    int64_t greatest; /* of u64 that of i64, above which no constant is */
    int32_t (*item)(const void *values, size_t index, int64_t *value);
    int32_t (*get)(flcol_array *array, size_t index, struct item *item);
    int32_t (*read)(flcol_array *array, void *values, size_t len, uint8_t *validity, size_t validity_len);
    int32_t (*count)(struct part *part, uint8_t op, int64_t constant, size_t *count);
    int32_t (*count_between)(flcol_array *array, int64_t lower, int64_t upper, size_t *count);
    int32_t (*min_max)(struct part *part, struct extremes *extremes);
    int32_t (*compare)(struct part *part, uint8_t op, int64_t constant, uint8_t *bits, uint8_t *validity);
    int32_t (*is_in)(flcol_array *array, const void *list, size_t list_len, uint8_t *bits, uint8_t *validity, size_t len);
    void (*put)(void *list, size_t index, int64_t value);
};

#define DEFINE_TYPE(T, C)                                                                                             \
    static int32_t item_##T(const void *values, size_t index, int64_t *value) {                                       \
        const C item = ((const C *)values)[index];                                                                    \
        const uint64_t magnitude = (uint64_t)item;                                                                    \
        if (item > 0 && magnitude > INT64_MAX) return FLCOL_CAST_OUT_OF_RANGE;                                        \
        *value = (int64_t)item;                                                                                       \
        return FLCOL_OK;                                                                                              \
    }                                                                                                                 \
    static int32_t get_##T(flcol_array *array, size_t index, struct item *item) {                                     \
        C value;                                                                                                      \
        uint8_t is_null;                                                                                              \
        const int32_t status = flcol_get_##T(array, index, &value, &is_null);                                         \
        if (status != FLCOL_OK) return status;                                                                        \
        item->is_null = is_null;                                                                                      \
        return item_##T(&value, 0, &item->value);                                                                     \
    }                                                                                                                 \
    static int32_t read_##T(flcol_array *array, void *values, size_t len, uint8_t *validity, size_t validity_len) {   \
        return flcol_read_##T(array, values, len, validity, validity_len);                                            \
    }                                                                                                                 \
    static int32_t count_##T(struct part *part, uint8_t op, int64_t constant, size_t *count) {                        \
        if (part->mask == NULL) return flcol_count_##T(&part->array, op, (C)constant, count);                         \
        return flcol_count_under_##T(&part->array, part->mask, bitmap_bytes(part->len), op, (C)constant, count);      \
    }                                                                                                                 \
    static int32_t count_between_##T(flcol_array *array, int64_t lower, int64_t upper, size_t *count) {               \
        return flcol_count_between_##T(array, (C)lower, (C)upper, 0, 0, count);                                       \
    }                                                                                                                 \
    static int32_t min_max_##T(struct part *part, struct extremes *extremes) {                                        \
        const size_t bytes = bitmap_bytes(part->len);                                                                 \
        C least, greatest;                                                                                            \
        uint8_t is_none;                                                                                              \
        const int32_t status =                                                                                        \
            part->mask == NULL                                                                                        \
                ? flcol_min_max_##T(&part->array, &least, &greatest, &is_none)                                        \
                : flcol_min_max_under_##T(&part->array, part->mask, bytes, &least, &greatest, &is_none);              \
        if (status == FLCOL_OK) *extremes = (struct extremes){!is_none, (wide)least, (wide)greatest};                 \
        return status;                                                                                                \
    }                                                                                                                 \
    static int32_t compare_##T(struct part *part, uint8_t op, int64_t constant, uint8_t *bits, uint8_t *validity) {   \
        const size_t len = bitmap_bytes(part->len);                                                                   \
        const C item = (C)constant;                                                                                   \
        return part->mask == NULL                                                                                     \
                   ? flcol_compare_##T(&part->array, op, item, bits, len, validity, validity ? len : 0)               \
                   : flcol_compare_under_##T(&part->array, part->mask, len, op, item, bits, len);                     \
    }                                                                                                                 \
    static int32_t is_in_##T(flcol_array *array, const void *list, size_t list_len, uint8_t *bits, uint8_t *validity, \
                             size_t len) {                                                                            \
        return flcol_is_in_##T(array, list, list_len, bits, len, validity, validity ? len : 0);                       \
    }                                                                                                                 \
    static void put_##T(void *list, size_t index, int64_t value) {                                                    \
        const C item = (C)value;                                                                                      \
        memcpy((char *)list + index * sizeof item, &item, sizeof item);                                               \
    }

DEFINE_TYPE(u8, uint8_t)
DEFINE_TYPE(u16, uint16_t)
DEFINE_TYPE(u32, uint32_t)
DEFINE_TYPE(u64, uint64_t)
DEFINE_TYPE(i8, int8_t)
DEFINE_TYPE(i16, int16_t)
DEFINE_TYPE(i32, int32_t)
DEFINE_TYPE(i64, int64_t)

#define TYPE_OF(T, LEAST, GREATEST) \
    {LEAST,     GREATEST,          item_##T,    get_##T,     read_##T,  count_##T, \
     count_between_##T, min_max_##T, compare_##T, is_in_##T, put_##T}

static const struct integer_type types[] = {
    [FLCOL_U8] = TYPE_OF(u8, 0, UINT8_MAX),           [FLCOL_U16] = TYPE_OF(u16, 0, UINT16_MAX),
    [FLCOL_U32] = TYPE_OF(u32, 0, UINT32_MAX),        [FLCOL_U64] = TYPE_OF(u64, 0, INT64_MAX),
    [FLCOL_I8] = TYPE_OF(i8, INT8_MIN, INT8_MAX),     [FLCOL_I16] = TYPE_OF(i16, INT16_MIN, INT16_MAX),
    [FLCOL_I32] = TYPE_OF(i32, INT32_MIN, INT32_MAX), [FLCOL_I64] = TYPE_OF(i64, INT64_MIN, INT64_MAX),
};

/* ---- Columns that are kept ---- */

int32_t column_take(struct column *column) {
    uint8_t dtype = 0;
    int32_t status = flcol_len(&column->array, &column->len);
    if (status == FLCOL_OK) status = flcol_dtype(&column->array, &dtype);
    if (status != FLCOL_OK) return status;
    column->is_nullable = (dtype & FLCOL_NULLABLE) != 0;
    column->type = dtype % FLCOL_NULLABLE;
    if (column->type > FLCOL_I64) return FLCOL_NOT_INTEGER;
    return column->len > COLUMN_ITEMS ? FLCOL_LENGTH_OVERFLOW : FLCOL_OK;
}

int32_t column_open(struct column *column, const void *bytes, size_t len) {
    column->array = FLCOL_EMPTY;
    int32_t status = flcol_deserialize(bytes, len, &column->array);
    if (status == FLCOL_OK) status = column_take(column);
    if (status != FLCOL_OK) column_close(column);
    return status;
}

void column_close(struct column *column) {
    flcol_free(&column->array);
}

int32_t column_get(struct column *column, int64_t index, struct item *item) {
    if (index < 0) return FLCOL_INDEX_OUT_OF_BOUNDS;
    return types[column->type].get(&column->array, (size_t)index, item);
}

int32_t column_slice(struct column *column, int64_t from, int64_t to, flcol_array *out) {
    if (from < 0 || to < 0) return FLCOL_RANGE_OUT_OF_BOUNDS;
    return flcol_slice(&column->array, (size_t)from, (size_t)to, out);
}

/* ---- Items in their order ---- */

/* The items of a column from `from` on, as many as a window has, or as there are. */
static int32_t part_of(struct column *column, size_t from, flcol_array *part, size_t *len) {
    *len = smaller(COLUMN_WINDOW, column->len - from);
    return flcol_slice(&column->array, from, from + *len, part);
}

static int32_t move_window(struct column *column, struct window *window, size_t from) {
    flcol_array part = FLCOL_EMPTY;
    size_t len = 0;
    int32_t status = part_of(column, from, &part, &len);
    window->len = 0;
    if (status == FLCOL_OK) {
        uint8_t *validity = column->is_nullable ? window->validity : NULL;
        status = types[column->type].read(&part, window->values, len, validity, validity ? bitmap_bytes(len) : 0);
    }
    if (status == FLCOL_OK) {
        window->from = from;
        window->len = len;
    }
    flcol_free(&part);
    return status;
}

int32_t column_item(struct column *column, struct window *window, size_t index, struct item *item) {
    if (index - window->from >= window->len) {
        const int32_t status = move_window(column, window, index - index % COLUMN_WINDOW);
        if (status != FLCOL_OK) return status;
    }
    const size_t at = index - window->from;
    item->is_null = column->is_nullable && !(window->validity[at / 8] >> at % 8 & 1);
    return item->is_null ? FLCOL_OK : types[column->type].item(window->values, at, &item->value);
}

/* ---- Counting ---- */

int32_t operator_of(const char *text, size_t len, uint8_t *op) {
    static const struct {
        const char *text;
        uint8_t op;
    } operators[] = {{"=", FLCOL_EQ}, {"<>", FLCOL_NOT_EQ}, {"!=", FLCOL_NOT_EQ}, {">", FLCOL_GT},
                     {">=", FLCOL_GTE}, {"<", FLCOL_LT},    {"<=", FLCOL_LTE}};
    for (size_t i = 0; i < sizeof operators / sizeof *operators; i++) {
        if (strlen(operators[i].text) != len || memcmp(operators[i].text, text, len) != 0) continue;
        *op = operators[i].op;
        return FLCOL_OK;
    }
    return FLCOL_BAD_OPERATOR;
}

/* Whether each integer of a type compares in the same way with a constant, and how. */
static bool is_decided(const struct integer_type *type, uint8_t op, int64_t constant, bool *answer) {
    const bool is_above = constant > type->greatest;
    if (!is_above && constant >= type->least) return false;
    *answer = op == FLCOL_NOT_EQ || (is_above ? op == FLCOL_LT || op == FLCOL_LTE : op == FLCOL_GT || op == FLCOL_GTE);
    return true;
}

/* Counts a part's items that are asked and not null. */
static int32_t count_valid(const struct integer_type *type, struct part *part, int64_t *count) {
    size_t counted = 0;
    const int32_t status = part->mask == NULL ? flcol_null_count(&part->array, &counted)
                                              : type->count(part, FLCOL_GTE, type->least, &counted);
    if (status == FLCOL_OK) *count += (int64_t)(part->mask == NULL ? part->len - counted : counted);
    return status;
}

/* Counts a part's items that meet a condition. */
static int32_t count_in(const struct integer_type *type, struct part *part, struct condition condition, int64_t *count) {
    bool is_met;
    size_t met = 0;
    int32_t status = FLCOL_OK;
    if (condition.is_between) {
        if (condition.lower < type->least) condition.lower = type->least;
        if (condition.upper > type->greatest) condition.upper = type->greatest;
        if (condition.lower > condition.upper) return FLCOL_OK;
        status = type->count_between(&part->array, condition.lower, condition.upper, &met);
    } else if (is_decided(type, condition.op, condition.constant, &is_met)) {
        return is_met ? count_valid(type, part, count) : FLCOL_OK;
    } else {
        status = type->count(part, condition.op, condition.constant, &met);
    }
    *count += (int64_t)met;
    return status;
}

int32_t gather_count(struct column *column, struct part *part, void *gathered) {
    struct counted *counted = gathered;
    return count_in(&types[column->type], part, counted->condition, &counted->count);
}

/* ---- Sums and extremes ---- */

static int32_t sum_unsigned(struct part *part, wide *sum) {
    uint64_t high = 0, low = 0;
    const int32_t status =
        part->mask == NULL ? flcol_sum_unsigned(&part->array, &high, &low)
                           : flcol_sum_under_unsigned(&part->array, part->mask, bitmap_bytes(part->len), &high, &low);
    *sum = ((wide)high << 64) + (wide)low;
    return status;
}

static int32_t sum_signed(struct part *part, wide *sum) {
    const wide high_one = (wide)1 << 64;
    int64_t high = 0;
    uint64_t low = 0;
    const int32_t status =
        part->mask == NULL ? flcol_sum_signed(&part->array, &high, &low)
                           : flcol_sum_under_signed(&part->array, part->mask, bitmap_bytes(part->len), &high, &low);
    *sum = (wide)high * high_one + (wide)low;
    return status;
}

int32_t gather_sum(struct column *column, struct part *part, void *gathered) {
    struct summed *summed = gathered;
    wide sum = 0;
    int32_t status = column->type >= FLCOL_I8 ? sum_signed(part, &sum) : sum_unsigned(part, &sum);
    if (status == FLCOL_OK) status = count_valid(&types[column->type], part, &summed->count);
    if (status == FLCOL_OK) summed->sum += sum;
    return status;
}

int32_t gather_extremes(struct column *column, struct part *part, void *gathered) {
    struct extremes *all = gathered, of_part = {0};
    const int32_t status = types[column->type].min_max(part, &of_part);
    if (status != FLCOL_OK || !of_part.is_some) return status;
    if (!all->is_some || of_part.least < all->least) all->least = of_part.least;
    if (!all->is_some || of_part.greatest > all->greatest) all->greatest = of_part.greatest;
    all->is_some = true;
    return FLCOL_OK;
}

/* ---- Tests that are answered ---- */

/* The room for the answers of a part. */
static uint8_t *room_at(uint8_t *bitmap, const struct part *part) {
    return bitmap == NULL ? NULL : bitmap + part->from / 8;
}

/* Where each integer of a type compares in the same way with a constant, turns the test into one of the type that has the same
   answers. */
static void decide(const struct integer_type *type, uint8_t *op, int64_t *constant) {
    bool answer;
    if (!is_decided(type, *op, *constant, &answer)) return;
    *op = answer ? FLCOL_GTE : FLCOL_LT;
    *constant = type->least;
}

int32_t gather_compared(struct column *column, struct part *part, void *gathered) {
    const struct compared *compared = gathered;
    const struct integer_type *type = &types[column->type];
    uint8_t op = compared->op;
    int64_t constant = compared->constant;
    decide(type, &op, &constant);
    return type->compare(part, op, constant, room_at(compared->answers->bits, part),
                         room_at(compared->answers->validity, part));
}

int32_t column_keep(struct column *column, size_t from, uint8_t op, int64_t constant, uint8_t mask[COLUMN_WINDOW / 8]) {
    const struct integer_type *type = &types[column->type];
    struct part part = {FLCOL_EMPTY, from, 0, mask};
    uint8_t bits[COLUMN_WINDOW / 8];
    decide(type, &op, &constant);
    int32_t status = part_of(column, from, &part.array, &part.len);
    if (status == FLCOL_OK) status = type->compare(&part, op, constant, bits, NULL);
    if (status == FLCOL_OK) memcpy(mask, bits, bitmap_bytes(part.len));
    flcol_free(&part.array);
    return status;
}

int32_t gather_listed(struct column *column, struct part *part, void *gathered) {
    const struct listed *listed = gathered;
    return types[column->type].is_in(&part->array, listed->list, listed->len, room_at(listed->answers->bits, part),
                                     room_at(listed->answers->validity, part), bitmap_bytes(part->len));
}

void column_narrow(const struct column *column, int64_t *list, size_t *len) {
    const struct integer_type *type = &types[column->type];
    size_t kept = 0;
    for (size_t i = 0; i < *len; i++) {
        int64_t value;
        memcpy(&value, (const char *)list + i * sizeof value, sizeof value);
        if (value >= type->least && value <= type->greatest) type->put(list, kept++, value);
    }
    *len = kept;
}

int32_t narrowed(wide integer, int64_t *value) {
    if (integer < INT64_MIN || integer > INT64_MAX) return FLCOL_CAST_OUT_OF_RANGE;
    *value = (int64_t)integer;
    return FLCOL_OK;
}

int32_t column_gather(struct column *column, size_t from, const uint8_t *mask, gather_fn *gather, void *gathered) {
    struct part part = {FLCOL_EMPTY, from, 0, mask == NULL ? NULL : mask + from / 8};
    int32_t status = part_of(column, from, &part.array, &part.len);
    if (status == FLCOL_OK) status = gather(column, &part, gathered);
    flcol_free(&part.array);
    return status;
}
