/* The calls whose requests for memory are refused, for one type of items (each_type.h). */

static ITEM FN(items)[ITEMS], FN(values)[ITEMS];

/* Makes a call on `array`, with outputs in `out` and in memory that has been marked. LAST_CALL is behind the last one. */
static int32_t FN(attempt)(int call) {
    ITEM value;
    size_t number;
    switch (call) {
    case 0: return CALL(from)(FN(items), ITEMS, validity, ITEM_BYTES, &out);
    case 1: return CALL(constant)(7, 0, ITEMS, &out);
    case 2: return flcol_deserialize(container, container_len, &out);
    case 3: return flcol_serialize(&array, written, sizeof written, &number);
    case 4: return flcol_serialized_len(&array, &number);
    case 5: return flcol_null_count(&array, &number);
    case 6: return flcol_is_constant(&array, bits);
    case 7: return flcol_is_sorted(&array, 1, bits);
    case 8: return CALL(read)(&array, FN(values), ITEMS, bits, ITEM_BYTES);
    case 9: return CALL(get)(&array, ITEMS / 2, &value, bits);
    case 10: return flcol_slice(&array, 5, ITEMS - 5, &out);
    case 11: return flcol_take(&array, indices, ITEMS, validity, ITEM_BYTES, &out);
    case 12: return flcol_take(&array, indices, 2, NULL, 0, &out);
    case 13: return flcol_take_ranges(&array, ranges, 2, &out);
    case 14: return flcol_filter(&array, validity, ITEM_BYTES, &out);
    case 15: return flcol_cast(&array, NUMBER + FLCOL_NULLABLE, &out);
    case 16: return flcol_to_blocked(&array, &out);
    case 17: return CALL(compare)(&array, FLCOL_LT, 20, bits, ITEM_BYTES, written, ITEM_BYTES);
    case 18: return CALL(between)(&array, 3, 20, 0, 1, bits, ITEM_BYTES, written, ITEM_BYTES);
    case 19: return flcol_scheme_len(&array, &number);
    case 20: return flcol_scheme(&array, (char *)written, scheme_len);
    case 21: return CALL(count)(&array, FLCOL_LT, 20, &totals.count);
    case 22: return CALL(count_between)(&array, 3, 20, 0, 1, &totals.count);
    case 23: return CALL(min_max)(&array, &FN(values)[0], &FN(values)[1], bits);
    case 24:
        return NUMBER < FLCOL_I8 ? flcol_sum_unsigned(&array, &totals.high, &totals.low)
                                 : flcol_sum_signed(&array, (int64_t *)&totals.high, &totals.low);
    case 25: return CALL(filter_by)(&array, FLCOL_LT, 20, &out);
    case 26: return CALL(filter_between)(&array, 3, 20, 0, 1, &out);
    case 27: return CALL(is_in)(&array, FN(items), 3, bits, ITEM_BYTES, written, ITEM_BYTES);
    case 28: return CALL(count_under)(&array, validity, ITEM_BYTES, FLCOL_LT, 20, &totals.count);
    case 29: return CALL(min_max_under)(&array, validity, ITEM_BYTES, &FN(values)[0], &FN(values)[1], bits);
    case 30:
        return NUMBER < FLCOL_I8 ? flcol_sum_under_unsigned(&array, validity, ITEM_BYTES, &totals.high, &totals.low)
                                 : flcol_sum_under_signed(&array, validity, ITEM_BYTES, (int64_t *)&totals.high, &totals.low);
    case 31: return flcol_indices_of(validity, ITEM_BYTES, ITEMS, &out);
    case 32: return CALL(compare_under)(&array, validity, ITEM_BYTES, FLCOL_LT, 20, bits, ITEM_BYTES);
    case 33: return CALL(between_under)(&array, validity, ITEM_BYTES, 3, 20, 0, 1, bits, ITEM_BYTES);
    default: return LAST_CALL;
    }
}

/* Refuses a call's first request, then its second, up to the call that meets no refusal. */
static void FN(refused_in_turn)(int call) {
    for (long requests = 0;; requests++) {
        long before = live;
        void *held = out.at;
        memset(FN(values), UNWRITTEN, sizeof FN(values));
        memset(bits, UNWRITTEN, sizeof bits), memset(&totals, UNWRITTEN, sizeof totals);
        memset(written, UNWRITTEN, sizeof written);
        granted = requests;
        int32_t status = FN(attempt)(call);
        granted = ALL;
        if (status == FLCOL_OK) break;
        refusals++;
        CHECK(status == FLCOL_OUT_OF_MEMORY && live == before && out.at == held);
        CHECK(unwritten(FN(values), sizeof FN(values)) && unwritten(bits, sizeof bits) && unwritten(written, sizeof written));
        CHECK(unwritten(&totals, sizeof totals));
    }
}

static void FN(encoded_in_turn)(flcol_array *plain, const char *scheme) {
    for (long requests = 0;; requests++) {
        long before = live;
        void *held = array.at;
        granted = requests;
        int32_t status = encode(plain, scheme, &array);
        granted = ALL;
        if (status == FLCOL_OK) return;
        refusals++;
        CHECK(status == FLCOL_OUT_OF_MEMORY && live == before && array.at == held);
    }
}

/* Whether the array's items are those that were given. */
static void FN(is_as_before)(void) {
    CHECK(CALL(read)(&array, FN(values), ITEMS, bits, ITEM_BYTES) == FLCOL_OK && memcmp(bits, validity, ITEM_BYTES) == 0);
    for (size_t i = 0; i < ITEMS; i++) CHECK(!bit(validity, i) || FN(values)[i] == FN(items)[i]);
}

static void FN(refuses)(void) {
    flcol_array plain = {NULL};
    for (size_t i = 0; i < ITEMS; i++) FN(items)[i] = (ITEM)(i % 700 == 3 ? 120 : i / 3 % 14);
    CHECK(CALL(from)(FN(items), ITEMS, validity, ITEM_BYTES, &plain) == FLCOL_OK);
    for (size_t s = 0; s < SCHEME_COUNT; s++) {
        FN(encoded_in_turn)(&plain, SCHEMES[s]);
        CHECK(flcol_serialize(&array, container, sizeof container, &container_len) == FLCOL_OK);
        CHECK(flcol_scheme_len(&array, &scheme_len) == FLCOL_OK);
        for (int call = 0; FN(attempt)(call) != LAST_CALL; call++) FN(refused_in_turn)(call);
        FN(is_as_before)();
    }
    flcol_free(&plain), flcol_free(&array), flcol_free(&out);
    CHECK(live == 0);
}
