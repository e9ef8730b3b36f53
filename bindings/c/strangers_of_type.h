/* Questions to an array of a container from a stranger, for one type of items (each_type.h). */

/* What is asked of all items at once is what the items say that were read, if there are any. */
static void FN(ask_totals)(flcol_array *array, const ITEM *values, const uint8_t *valid, size_t n) {
    uint64_t high = 0, low = 0, sum = 0;
    size_t count = 0, met = 0;
    ITEM least = 0, greatest = 0;
    uint8_t is_none = 0;
    flcol_array chosen = {NULL};
    for (size_t i = 0; i < n; i++) sum += bit(valid, i) ? (uint64_t)values[i] : 0, met += bit(valid, i) && values[i] >= 3;
    int is_summed = answers(NUMBER < FLCOL_I8 ? flcol_sum_unsigned(array, &high, &low) : flcol_sum_signed(array, (int64_t *)&high, &low));
    CHECK(!is_summed || n == 0 || low == sum);
    CHECK(!answers(CALL(count)(array, FLCOL_GTE, 3, &count)) || n == 0 || count == met);
    CHECK(!answers(CALL(min_max)(array, &least, &greatest, &is_none)) || is_none || least <= greatest);
    if (answers(CALL(filter_by)(array, FLCOL_GTE, 3, &chosen))) CHECK(flcol_len(&chosen, &count) == FLCOL_OK && (n == 0 || count == met));
    flcol_free(&chosen);
}

/* What is asked under a mask, here that of the valid items, and of a list is what the items say that were read. */
static void FN(ask_selected)(flcol_array *array, const ITEM *values, const uint8_t *valid, size_t n) {
    const ITEM list[] = {3, 9};
    const size_t bytes = (n + 7) / 8;
    uint8_t *bits = (uint8_t *)malloc(bytes), *known = (uint8_t *)malloc(bytes), is_none = 0, is_sorted = 0;
    uint64_t high = 0, low = 0, sum = 0;
    size_t count = 0, met = 0, position = 0;
    ITEM least = 0, greatest = 0;
    flcol_array positions = {NULL};
    CHECK(bits != NULL && known != NULL);
    for (size_t i = 0; i < n; i++) sum += bit(valid, i) ? (uint64_t)values[i] : 0, met += bit(valid, i) && values[i] >= 3;
    int is_summed = answers(NUMBER < FLCOL_I8 ? flcol_sum_under_unsigned(array, valid, bytes, &high, &low)
                                              : flcol_sum_under_signed(array, valid, bytes, (int64_t *)&high, &low));
    CHECK(!is_summed || low == sum);
    CHECK(!answers(CALL(count_under)(array, valid, bytes, FLCOL_GTE, 3, &count)) || count == met);
    CHECK(!answers(CALL(min_max_under)(array, valid, bytes, &least, &greatest, &is_none)) || is_none || least <= greatest);
    int is_listed = answers(CALL(is_in)(array, list, 2, bits, bytes, known, bytes));
    for (size_t i = 0; i < n && is_listed; i++) CHECK(!bit(valid, i) || bit(bits, i) == (values[i] == 3 || values[i] == 9));
    int is_tested = answers(CALL(compare_under)(array, valid, bytes, FLCOL_GTE, 3, bits, bytes));
    for (size_t i = 0; i < n && is_tested; i++) CHECK(bit(bits, i) == (bit(valid, i) && values[i] >= 3));
    is_tested = answers(CALL(between_under)(array, valid, bytes, 3, 9, 0, 0, bits, bytes));
    for (size_t i = 0; i < n && is_tested; i++) CHECK(bit(bits, i) == (bit(valid, i) && values[i] >= 3 && values[i] <= 9));
    if (answers(flcol_is_sorted(array, 0, &is_sorted)) && is_sorted)
        CHECK(!answers(CALL(lower_bound)(array, 3, &position)) || position == n - met);
    answers(flcol_indices_of(valid, bytes, n, &positions));
    free(bits), free(known), flcol_free(&positions);
}

/* An array of this type answers all calls alike, or finds no memory. */
static void FN(ask)(flcol_array *array, size_t n) {
    ITEM *values = (ITEM *)malloc((n + 1) * sizeof(ITEM)), value = 0;
    uint8_t *valid = (uint8_t *)malloc(n / 8 + 1), *bits = (uint8_t *)malloc(n / 8 + 1), is_null = 0;
    size_t bytes = (n + 7) / 8;
    flcol_array part = {NULL};
    CHECK(values != NULL && valid != NULL && bits != NULL);
    int is_read = answers(CALL(read)(array, values, n, valid, bytes));
    int is_compared = is_read && answers(CALL(compare)(array, FLCOL_GTE, 3, bits, bytes, valid, bytes));
    for (size_t i = 0; i < n && is_compared; i += n / 3 + 1) {
        if (!answers(CALL(get)(array, i, &value, &is_null))) continue;
        CHECK(is_null == !bit(valid, i) && (is_null || (value == values[i] && bit(bits, i) == (value >= 3))));
    }
    FN(ask_totals)(array, values, valid, is_compared ? n : 0);
    if (is_compared && n > 0) FN(ask_selected)(array, values, valid, n);
    if (answers(flcol_slice(array, n / 3, n, &part))) answers(CALL(read)(&part, values, n - n / 3, valid, (n - n / 3 + 7) / 8));
    free(values), free(valid), free(bits), flcol_free(&part);
}

/* Containers of this type, in each encoding. */
static void FN(change_all)(void) {
    static const ITEM items[] = {7, 7, 9, 120, 9, 3, 3};
    static const uint8_t validity[] = {0x77};
    flcol_array plain = {NULL}, encoded = {NULL};
    for (size_t s = 0; s < 2 * SCHEME_COUNT; s++) {
        CHECK(CALL(from)(items, 7, validity, s % 2, &plain) == FLCOL_OK);
        int32_t status = encode(&plain, SCHEMES[s / 2], &encoded);
        CHECK(status == FLCOL_OK || cannot_keep(status));
        if (status == FLCOL_OK) change_each_byte(&encoded);
    }
    flcol_free(&plain), flcol_free(&encoded);
}
