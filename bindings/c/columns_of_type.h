/* Every call for columns beside plain loops, for one type of items (each_type.h). */

/* Small items in runs, a few of any size. */
static void FN(fill)(ITEM *items, uint8_t *validity, size_t n, uint64_t *state) {
    ITEM item = 0;
    for (size_t i = 0; i < n; i++) {
        uint64_t kind = random_below(state, 9);
        if (kind < 3) item = (ITEM)random_below(state, 40);
        if (kind == 8) item = (ITEM)(random_below(state, UINT64_MAX) << random_below(state, 64));
        items[i] = item;
        set_bit(validity, i, random_below(state, 5) != 0);
    }
}

static int FN(holds)(int op, ITEM left, ITEM right) {
    switch (op) {
    case FLCOL_EQ: return left == right;
    case FLCOL_NOT_EQ: return left != right;
    case FLCOL_GT: return left > right;
    case FLCOL_GTE: return left >= right;
    case FLCOL_LT: return left < right;
    default: return left <= right;
    }
}

/* Whether an array has these items. */
static void FN(has)(flcol_array *array, const ITEM *items, const uint8_t *validity, size_t n) {
    ITEM values[MOST];
    uint8_t valid[MOST_BYTES];
    size_t len = 0, bytes = (n + 7) / 8;
    CHECK(flcol_len(array, &len) == FLCOL_OK && len == n);
    CHECK(CALL(read)(array, values, n, valid, bytes) == FLCOL_OK);
    for (size_t i = 0; i < n; i++)
        CHECK(bit(valid, i) == is_valid(validity, i) && (!bit(valid, i) || values[i] == items[i]));
    for (size_t i = n; i < 8 * bytes; i++) CHECK(!bit(valid, i));
}

static void FN(looks)(flcol_array *array, const ITEM *items, const uint8_t *validity, size_t n) {
    size_t nulls = 0, counted = 0;
    int constant = 1, sorted = 1, strict = 1;
    uint8_t dtype = 0, answer = 0;
    for (size_t i = 0; i < n; i++) nulls += !is_valid(validity, i);
    for (size_t i = 1; i < n; i++) {
        int before = is_valid(validity, i - 1), valid = is_valid(validity, i);
        int same = before == valid && (!valid || items[i - 1] == items[i]);
        int below = valid && (!before || items[i - 1] < items[i]);
        constant &= same, sorted &= same | below, strict &= below;
    }
    CHECK(flcol_dtype(array, &dtype) == FLCOL_OK && dtype == (validity ? NUMBER + FLCOL_NULLABLE : NUMBER));
    CHECK(flcol_null_count(array, &counted) == FLCOL_OK && counted == nulls);
    CHECK(flcol_is_constant(array, &answer) == FLCOL_OK && answer == constant);
    CHECK(flcol_is_sorted(array, 0, &answer) == FLCOL_OK && answer == sorted);
    CHECK(flcol_is_sorted(array, 1, &answer) == FLCOL_OK && answer == strict);
}

static void FN(reads)(flcol_array *array, const ITEM *items, const uint8_t *validity, size_t n) {
    ITEM values[MOST + 1], value;
    uint8_t valid[MOST_BYTES + 1], is_null;
    size_t bytes = (n + 7) / 8, nulls = 0;
    memset(values, UNWRITTEN, sizeof values);
    memset(valid, UNWRITTEN, sizeof valid);
    CHECK(CALL(read)(array, values, n + 1, valid, bytes) == FLCOL_WRONG_LENGTH);
    CHECK(CALL(read)(array, values, n, valid, bytes + 1) == FLCOL_WRONG_LENGTH);
    if (n > 0) CHECK(CALL(read)(array, values, n - 1, valid, bytes) == FLCOL_WRONG_LENGTH);
    if (n > 8) CHECK(CALL(read)(array, values, n, valid, bytes - 1) == FLCOL_WRONG_LENGTH);
    CHECK(flcol_null_count(array, &nulls) == FLCOL_OK);
    if (nulls) CHECK(CALL(read)(array, values, n, NULL, 0) == FLCOL_VALIDITY_LENGTH);
    CHECK(unwritten(values, sizeof values) && unwritten(valid, sizeof valid));
    CHECK(CALL(read)(array, values, n, valid, bytes) == FLCOL_OK);
    CHECK(unwritten(values + n, sizeof(ITEM)) && unwritten(valid + bytes, 1));
    if (!nulls) CHECK(CALL(read)(array, values, n, NULL, 0) == FLCOL_OK);
    if (!nulls) CHECK(n == 0 || memcmp(values, items, n * sizeof(ITEM)) == 0);
    for (size_t i = 0; i < n; i += 53) {
        CHECK(CALL(get)(array, i, &value, &is_null) == FLCOL_OK && is_null == !is_valid(validity, i));
        CHECK(value == (is_null ? 0 : items[i]));
    }
    memset(&value, UNWRITTEN, sizeof value), is_null = UNWRITTEN;
    CHECK(CALL(get)(array, n, &value, &is_null) == FLCOL_INDEX_OUT_OF_BOUNDS);
    CHECK(unwritten(&value, sizeof value) && is_null == UNWRITTEN);
}

static void FN(chooses)(flcol_array *array, const ITEM *items, const uint8_t *validity, size_t n) {
    flcol_array out = {NULL};
    ITEM chosen[MOST];
    uint8_t valid[MOST_BYTES] = {0}, mask[MOST_BYTES + 1] = {0};
    uint64_t indices[MOST];
    uint8_t index_validity[MOST_BYTES] = {0};
    size_t third = n / 3, count = 0;

    CHECK(flcol_slice(array, third, n, &out) == FLCOL_OK);
    for (size_t i = third; i < n; i++) {
        chosen[i - third] = items[i];
        set_bit(valid, i - third, is_valid(validity, i));
    }
    FN(has)(&out, chosen, valid, n - third);
    void *held = out.at;
    CHECK(flcol_slice(array, third, n + 1, &out) == FLCOL_RANGE_OUT_OF_BOUNDS && out.at == held);
    CHECK(flcol_slice(array, third + 1, third, &out) == FLCOL_RANGE_OUT_OF_BOUNDS && out.at == held);

    flcol_range ranges[] = {{third, n - third}, {n + 9, 0}, {0, third}};
    CHECK(flcol_take_ranges(array, ranges, 3, &out) == FLCOL_OK);
    for (size_t i = 0; i < third; i++) {
        chosen[n - third + i] = items[i];
        set_bit(valid, n - third + i, is_valid(validity, i));
    }
    FN(has)(&out, chosen, valid, n);
    ranges[2].start = n, ranges[2].len = 1, held = out.at;
    CHECK(flcol_take_ranges(array, ranges, 3, &out) == FLCOL_RANGE_OUT_OF_BOUNDS && out.at == held);

    for (size_t i = 0; i < n; i++) {
        int known = i % 5 != 2;
        indices[i] = known ? i * 7 % n : n + i;
        chosen[i] = items[i * 7 % n];
        set_bit(index_validity, i, known);
        set_bit(valid, i, known && is_valid(validity, i * 7 % n));
    }
    CHECK(flcol_take(array, indices, n, index_validity, (n + 7) / 8, &out) == FLCOL_OK);
    FN(has)(&out, chosen, valid, n), held = out.at;
    if (n > 2) CHECK(flcol_take(array, indices, n, NULL, 0, &out) == FLCOL_INDEX_OUT_OF_BOUNDS && out.at == held);
    if (n > 8) CHECK(flcol_take(array, indices, n, index_validity, n / 8, &out) == (n % 8 ? FLCOL_VALIDITY_LENGTH : FLCOL_OK));

    for (size_t i = 0; i < n; i++) {
        set_bit(mask, i, i % 3 == 1);
        if (i % 3 != 1) continue;
        set_bit(valid, count, is_valid(validity, i));
        chosen[count++] = items[i];
    }
    CHECK(flcol_filter(array, mask, (n + 7) / 8, &out) == FLCOL_OK);
    FN(has)(&out, chosen, valid, count), held = out.at;
    CHECK(flcol_filter(array, mask, (n + 7) / 8 + 1, &out) == FLCOL_MASK_LENGTH && out.at == held);
    if (n > 0) CHECK(flcol_filter(array, mask, (n - 1) / 8, &out) == FLCOL_MASK_LENGTH && out.at == held);
    flcol_free(&out);
}

static void FN(answers)(flcol_array *array, const ITEM *items, const uint8_t *validity, size_t n) {
    uint8_t bits[MOST_BYTES + 1], valid[MOST_BYTES + 1];
    size_t bytes = (n + 7) / 8, nulls = 0;
    ITEM constants[] = {7, n ? items[n / 2] : (ITEM)1, 0};
    CHECK(flcol_null_count(array, &nulls) == FLCOL_OK);
    for (int op = 0; op < 6; op++) {
        for (size_t k = 0; k < 3; k++) {
            CHECK(CALL(compare)(array, (uint8_t)op, constants[k], bits, bytes, valid, bytes) == FLCOL_OK);
            for (size_t i = 0; i < n; i++) {
                CHECK(bit(valid, i) == is_valid(validity, i));
                CHECK(!bit(valid, i) || bit(bits, i) == FN(holds)(op, items[i], constants[k]));
            }
            for (size_t i = n; i < 8 * bytes; i++) CHECK(!bit(bits, i) && !bit(valid, i));
        }
    }
    for (int strict = 0; strict < 4; strict++) {
        uint8_t above = strict & 1, below = strict >> 1;
        CHECK(CALL(between)(array, 3, 30, above, below, bits, bytes, valid, bytes) == FLCOL_OK);
        for (size_t i = 0; i < n; i++) {
            int lies = (above ? items[i] > 3 : items[i] >= 3) && (below ? items[i] < 30 : items[i] <= 30);
            CHECK(bit(valid, i) == is_valid(validity, i) && (!bit(valid, i) || bit(bits, i) == lies));
        }
    }
    memset(bits, UNWRITTEN, sizeof bits), memset(valid, UNWRITTEN, sizeof valid);
    CHECK(CALL(compare)(array, 6, 7, bits, bytes, valid, bytes) == FLCOL_BAD_OPERATOR);
    CHECK(CALL(compare)(array, FLCOL_EQ, 7, bits, bytes + 1, valid, bytes) == FLCOL_WRONG_LENGTH);
    CHECK(CALL(between)(array, 3, 30, 0, 0, bits, bytes, valid, bytes + 1) == FLCOL_WRONG_LENGTH);
    if (n > 8) CHECK(CALL(compare)(array, FLCOL_EQ, 7, bits, bytes - 1, valid, bytes) == FLCOL_WRONG_LENGTH);
    if (n > 8) CHECK(CALL(between)(array, 3, 30, 0, 0, bits, bytes, valid, bytes - 1) == FLCOL_WRONG_LENGTH);
    if (nulls) CHECK(CALL(between)(array, 3, 30, 0, 0, bits, bytes, NULL, 0) == FLCOL_VALIDITY_LENGTH);
    if (nulls) CHECK(CALL(compare)(array, FLCOL_LT, 7, bits, bytes, NULL, 0) == FLCOL_VALIDITY_LENGTH);
    CHECK(unwritten(bits, sizeof bits) && unwritten(valid, sizeof valid));
    if (!nulls) CHECK(CALL(compare)(array, FLCOL_LT, 7, bits, bytes, NULL, 0) == FLCOL_OK);
}

/* The sum of the valid items, by the call of the type's sign, and by the other one. */
static int32_t FN(sum)(flcol_array *array, uint64_t *high, uint64_t *low) {
    return NUMBER < FLCOL_I8 ? flcol_sum_unsigned(array, high, low) : flcol_sum_signed(array, (int64_t *)high, low);
}

static int32_t FN(sum_of_other_sign)(flcol_array *array, uint64_t *high, uint64_t *low) {
    return NUMBER < FLCOL_I8 ? flcol_sum_signed(array, (int64_t *)high, low) : flcol_sum_unsigned(array, high, low);
}

#include "selections_of_type.h"

/* Sums and extremes beside a loop with carries. */
static void FN(gathers)(flcol_array *array, const ITEM *items, const uint8_t *validity, size_t n) {
    uint64_t high = 0, low = 0, sum_high = 1, sum_low = 1;
    ITEM least = 0, greatest = 0, found[2] = {1, 1};
    uint8_t is_none = 1, answer = UNWRITTEN;
    for (size_t i = 0; i < n; i++) {
        if (!is_valid(validity, i)) continue;
        low += (uint64_t)items[i];
        high += low < (uint64_t)items[i];
        high -= NUMBER >= FLCOL_I8 ? (uint64_t)items[i] >> 63 : 0;
        if (is_none || items[i] < least) least = items[i];
        if (is_none || items[i] > greatest) greatest = items[i];
        is_none = 0;
    }
    CHECK(FN(sum)(array, &sum_high, &sum_low) == FLCOL_OK && sum_high == high && sum_low == low);
    CHECK(FN(sum_of_other_sign)(array, &sum_high, &sum_low) == FLCOL_WRONG_TYPE && sum_high == high && sum_low == low);
    CHECK(CALL(min_max)(array, &found[0], &found[1], &answer) == FLCOL_OK && answer == is_none);
    CHECK(found[0] == least && found[1] == greatest);
}

/* Counts the items that meet a test, and chooses them. */
static void FN(counts)(flcol_array *array, const ITEM *items, const uint8_t *validity, size_t n) {
    flcol_array out = {NULL};
    ITEM chosen[MOST], constants[] = {7, n ? items[n / 2] : (ITEM)1, 0};
    size_t counted, count;
    uint8_t dtype = 0, of_array = 0;
    for (int op = 0; op < 6; op++) {
        ITEM constant = constants[(n + (size_t)op / 2) % 3];
        count = 0, counted = n + 1;
        for (size_t i = 0; i < n; i++)
            if (is_valid(validity, i) && FN(holds)(op, items[i], constant)) chosen[count++] = items[i];
        CHECK(CALL(count)(array, (uint8_t)op, constant, &counted) == FLCOL_OK && counted == count);
        CHECK(CALL(filter_by)(array, (uint8_t)op, constant, &out) == FLCOL_OK);
        FN(has)(&out, chosen, NULL, count);
    }
    for (int strict = 0; strict < 4; strict++) {
        uint8_t above = strict & 1, below = (uint8_t)(strict & 2); /* any number but 0 is strict */
        count = 0, counted = n + 1;
        for (size_t i = 0; i < n; i++) {
            int lies = (above ? items[i] > 3 : items[i] >= 3) && (below ? items[i] < 30 : items[i] <= 30);
            if (is_valid(validity, i) && lies) chosen[count++] = items[i];
        }
        CHECK(CALL(count_between)(array, 3, 30, above, below, &counted) == FLCOL_OK && counted == count);
        CHECK(CALL(filter_between)(array, 3, 30, above, below, &out) == FLCOL_OK);
        FN(has)(&out, chosen, NULL, count);
    }
    CHECK(CALL(count_between)(array, 30, 3, 0, 0, &counted) == FLCOL_OK && counted == 0);
    CHECK(flcol_dtype(array, &of_array) == FLCOL_OK && flcol_dtype(&out, &dtype) == FLCOL_OK && dtype == of_array);
    void *held = out.at;
    counted = n + 1;
    CHECK(CALL(count)(array, 6, 7, &counted) == FLCOL_BAD_OPERATOR && counted == n + 1);
    CHECK(CALL(filter_by)(array, 255, 7, &out) == FLCOL_BAD_OPERATOR && out.at == held);
    flcol_free(&out);
}

/* What is asked of a slice is asked of its items alone. */
static void FN(totals)(flcol_array *array, const ITEM *items, const uint8_t *validity, size_t n) {
    flcol_array part = {NULL};
    uint8_t valid[MOST_BYTES] = {0};
    size_t from = n / 3, to = n - n / 7;
    FN(gathers)(array, items, validity, n), FN(counts)(array, items, validity, n);
    for (size_t i = from; i < to; i++) set_bit(valid, i - from, is_valid(validity, i));
    CHECK(flcol_slice(array, from, to, &part) == FLCOL_OK);
    FN(gathers)(&part, items + from, valid, to - from);
    FN(counts)(&part, items + from, valid, to - from);
    FN(selects)(array, n), FN(selects)(&part, to - from);
    FN(lists)(array, items, validity, n), FN(lists)(&part, items + from, valid, to - from);
    flcol_free(&part);
}

/* The container is written where there is room for it, and over no byte behind it; where there is less, over none. */
static void FN(gives_back)(flcol_array *array, const ITEM *items, const uint8_t *validity, size_t n) {
    enum { BEHIND = 9 };
    flcol_array out = {NULL};
    size_t len = 0, written = 3;
    CHECK(flcol_serialized_len(array, &len) == FLCOL_OK);
    uint8_t *exact = (uint8_t *)malloc(len), *roomy = (uint8_t *)malloc(len + BEHIND);
    CHECK(exact != NULL && roomy != NULL);
    memset(roomy, UNWRITTEN, len + BEHIND);
    CHECK(flcol_serialize(array, NULL, 0, &written) == FLCOL_WRONG_LENGTH && flcol_serialize(array, roomy, 4, &written) == FLCOL_WRONG_LENGTH);
    CHECK(flcol_serialize(array, roomy, len - 1, &written) == FLCOL_WRONG_LENGTH && unwritten(roomy, len + BEHIND) && written == 3);
    CHECK(flcol_serialize(array, roomy, len + BEHIND, &written) == FLCOL_OK && written == len && unwritten(roomy + len, BEHIND));
    CHECK(flcol_serialize(array, exact, len, &written) == FLCOL_OK && written == len && memcmp(exact, roomy, len) == 0);
    CHECK(flcol_deserialize(exact, len - 1, &out) == FLCOL_BAD_CONTAINER && out.at == NULL);
    CHECK(flcol_deserialize(exact, len, &out) == FLCOL_OK);
    free(exact), free(roomy);
    FN(has)(&out, items, validity, n);
    flcol_free(&out);
}

static void FN(changes_form)(flcol_array *array, const ITEM *items, const uint8_t *validity, size_t n) {
    flcol_array out = {NULL};
    size_t nulls = 0;
    uint8_t dtype = 0;
    CHECK(flcol_to_blocked(array, &out) == FLCOL_OK);
    FN(has)(&out, items, validity, n);
    CHECK(flcol_cast(array, NUMBER + FLCOL_NULLABLE, &out) == FLCOL_OK);
    FN(has)(&out, items, validity, n);
    CHECK(flcol_dtype(&out, &dtype) == FLCOL_OK && dtype == NUMBER + FLCOL_NULLABLE);
    CHECK(flcol_null_count(array, &nulls) == FLCOL_OK);
    CHECK(flcol_cast(array, NUMBER, &out) == (nulls ? FLCOL_CAST_NULL : FLCOL_OK));
    CHECK(flcol_cast(array, 9, &out) == FLCOL_UNKNOWN_TYPE);
    CHECK(flcol_cast(array, FLCOL_BOOL, &out) == FLCOL_NOT_INTEGER);
    FN(has)(&out, items, validity, n);
    flcol_free(&out);
}

/* The array says what it is; where its column can be encoded so, that array says the same. */
static void FN(says)(flcol_array *array) {
    flcol_array again = {NULL};
    size_t len = 0, same = 0;
    char text[200], said[200];
    CHECK(flcol_scheme_len(array, &len) == FLCOL_OK && len <= sizeof text && flcol_scheme(array, text, len) == FLCOL_OK);
    int32_t status = flcol_encode(array, text, len, &again);
    CHECK(status == FLCOL_OK || cannot_keep(status));
    if (status == FLCOL_OK) {
        CHECK(flcol_scheme_len(&again, &same) == FLCOL_OK && same == len);
        CHECK(flcol_scheme(&again, said, len) == FLCOL_OK && memcmp(said, text, len) == 0);
    }
    flcol_free(&again);
}

static void FN(every_call)(flcol_array *array, const ITEM *items, const uint8_t *validity, size_t n) {
    FN(has)(array, items, validity, n);
    FN(looks)(array, items, validity, n);
    FN(says)(array);
    FN(reads)(array, items, validity, n);
    FN(chooses)(array, items, validity, n);
    FN(answers)(array, items, validity, n);
    FN(totals)(array, items, validity, n);
    FN(gives_back)(array, items, validity, n);
    FN(changes_form)(array, items, validity, n);
    FN(has)(array, items, validity, n);
}

static void FN(constants)(void) {
    static const ITEM sevens[] = {7, 7, 7};
    static const uint8_t none[] = {0};
    flcol_array array = {NULL};
    CHECK(CALL(constant)(7, 0, 3, &array) == FLCOL_OK);
    FN(every_call)(&array, sevens, NULL, 3);
    CHECK(CALL(constant)(9, 1, 3, &array) == FLCOL_OK);
    FN(every_call)(&array, sevens, none, 3);
    flcol_free(&array);
}

/* The greatest and the least items, whose sum takes more than 64 bits, and items of which none is valid. */
static void FN(far_totals)(void) {
    static const uint8_t none[MOST_BYTES] = {0};
    const ITEM greatest = (ITEM)(UINT64_MAX >> (64 - 8 * sizeof(ITEM) + (NUMBER >= FLCOL_I8))), least = (ITEM)~greatest;
    ITEM items[MOST];
    flcol_array plain = {NULL}, encoded = {NULL};
    for (int far = 0; far < 4; far++) {
        const uint8_t *valid = far > 1 ? none : NULL;
        for (size_t i = 0; i < MOST; i++) items[i] = far % 2 ? least : greatest;
        CHECK(CALL(from)(items, MOST, valid, valid ? MOST_BYTES : 0, &plain) == FLCOL_OK);
        CHECK(flcol_compress(&plain, &encoded) == FLCOL_OK);
        FN(totals)(&plain, items, valid, MOST), FN(totals)(&encoded, items, valid, MOST);
    }
    flcol_free(&plain), flcol_free(&encoded);
}

/* Calls on none, and calls of the other types. */
static void FN(refusals)(void) {
    flcol_array none = {NULL}, array = {NULL}, out = {NULL};
    ITEM value = 0;
    uint8_t bits = 0, validity = 0, byte = 3;
    size_t number = 3;
    CHECK(CALL(from)(&value, 1, NULL, 0, &array) == FLCOL_OK);
    int is_u8 = NUMBER == FLCOL_U8;
    int32_t status = is_u8 ? flcol_get_i8(&array, 0, (int8_t *)&value, &bits) : flcol_get_u8(&array, 0, (uint8_t *)&value, &bits);
    CHECK(status == FLCOL_WRONG_TYPE);
    status = is_u8 ? flcol_count_i8(&array, FLCOL_EQ, 0, &number) : flcol_count_u8(&array, FLCOL_EQ, 0, &number);
    CHECK(status == FLCOL_WRONG_TYPE);
    status = is_u8 ? flcol_count_i8(&array, 6, 0, &number) : flcol_count_u8(&array, 6, 0, &number);
    CHECK(status == FLCOL_BAD_OPERATOR);
    status = is_u8 ? flcol_count_between_i8(&array, 0, 1, 0, 0, &number) : flcol_count_between_u8(&array, 0, 1, 0, 0, &number);
    CHECK(status == FLCOL_WRONG_TYPE && number == 3);
    status = is_u8 ? flcol_min_max_i8(&array, (int8_t *)&byte, (int8_t *)&byte, &byte) : flcol_min_max_u8(&array, &byte, &byte, &byte);
    CHECK(status == FLCOL_WRONG_TYPE && byte == 3);
    status = is_u8 ? flcol_filter_by_i8(&array, FLCOL_EQ, 0, &out) : flcol_filter_by_u8(&array, FLCOL_EQ, 0, &out);
    CHECK(status == FLCOL_WRONG_TYPE);
    status = is_u8 ? flcol_filter_by_i8(&array, 6, 0, &out) : flcol_filter_by_u8(&array, 6, 0, &out);
    CHECK(status == FLCOL_BAD_OPERATOR);
    status = is_u8 ? flcol_filter_between_i8(&array, 0, 1, 0, 0, &out) : flcol_filter_between_u8(&array, 0, 1, 0, 0, &out);
    CHECK(status == FLCOL_WRONG_TYPE && out.at == NULL);
    flcol_free(&array);
    CHECK(array.at == NULL);
    CHECK(CALL(read)(&none, &value, 1, &validity, 1) == FLCOL_NO_ARRAY);
    CHECK(CALL(get)(&none, 0, &value, &validity) == FLCOL_NO_ARRAY);
    CHECK(CALL(compare)(&none, 9, 7, &bits, 1, &validity, 1) == FLCOL_NO_ARRAY);
    CHECK(CALL(between)(&none, 3, 7, 0, 0, &bits, 1, &validity, 1) == FLCOL_NO_ARRAY);
    CHECK(CALL(count)(&none, 9, 7, &number) == FLCOL_NO_ARRAY && CALL(count_between)(&none, 3, 7, 0, 0, &number) == FLCOL_NO_ARRAY);
    CHECK(CALL(filter_by)(&none, 9, 7, &out) == FLCOL_NO_ARRAY && CALL(filter_between)(&none, 3, 7, 0, 0, &out) == FLCOL_NO_ARRAY);
    CHECK(number == 3 && out.at == NULL);
    CHECK(CALL(from)(&value, 9, &validity, 1, &array) == FLCOL_VALIDITY_LENGTH && array.at == NULL);
}

/* All encodings are those of flcol_compress, each fewer leave as few bytes at the least, and none but plain items. */
static void FN(compresses_within)(flcol_array *plain, uint64_t least, size_t n) {
    flcol_array made = {NULL};
    uint64_t taken = 0;
    CHECK(flcol_compress_within(plain, FLCOL_USE_ALL, 3, &made) == FLCOL_OK);
    CHECK(flcol_nbytes(&made, &taken) == FLCOL_OK && taken == least);
    for (uint8_t encodings = 0; encodings <= FLCOL_USE_ALL; encodings += 21) {
        CHECK(flcol_compress_within(plain, encodings, 3, &made) == FLCOL_OK);
        CHECK(flcol_nbytes(&made, &taken) == FLCOL_OK && taken >= least);
        if (encodings == 0) CHECK(taken >= n * sizeof(ITEM));
    }
    CHECK(flcol_compress_within(plain, FLCOL_USE_ALL + 1, 3, &made) == FLCOL_BAD_ENCODINGS);
    CHECK(flcol_nbytes(&made, &taken) == FLCOL_OK && taken >= least);
    flcol_free(&made);
}

/* The smallest array has the items, and takes no more than the plain one. */
static void FN(compresses)(flcol_array *plain, const ITEM *items, const uint8_t *validity, size_t n) {
    flcol_array smallest = {NULL};
    uint64_t of_plain = 0, of_smallest = 0;
    CHECK(flcol_compress(plain, &smallest) == FLCOL_OK);
    CHECK(flcol_nbytes(plain, &of_plain) == FLCOL_OK && flcol_nbytes(&smallest, &of_smallest) == FLCOL_OK);
    CHECK(of_smallest <= of_plain && of_plain >= n * sizeof(ITEM));
    FN(every_call)(&smallest, items, validity, n);
    FN(compresses_within)(plain, of_smallest, n);
    flcol_free(&smallest);
}

static void FN(columns)(void) {
    static const size_t lengths[] = {0, 1, 1023, 1025, MOST};
    ITEM items[MOST];
    uint8_t validity[MOST_BYTES] = {0};
    uint64_t state = NUMBER + 1;
    for (size_t k = 0; k < 2 * sizeof lengths / sizeof lengths[0]; k++) {
        size_t n = lengths[k / 2];
        const uint8_t *valid = k % 2 ? validity : NULL;
        flcol_array plain = {NULL}, encoded = {NULL};
        FN(fill)(items, validity, n, &state);
        CHECK(CALL(from)(items, n, valid, valid ? n / 8 + 1 : 0, &plain) == FLCOL_OK);
        for (size_t s = 0; s < SCHEME_COUNT; s++) {
            int32_t status = encode(&plain, SCHEMES[s], &encoded);
            CHECK(status == FLCOL_OK || cannot_keep(status));
            if (status == FLCOL_OK) FN(every_call)(&encoded, items, valid, n);
        }
        FN(compresses)(&plain, items, valid, n);
        flcol_free(&plain);
        flcol_free(&encoded);
    }
    FN(constants)();
    FN(far_totals)();
    FN(finds)();
    FN(refusals)();
    FN(refuses_selections)();
}
