/* Files of chunks beside plain loops, for one type of items (each_type.h). */

static flcol_integer FN(integer)(ITEM item) {
    int64_t word = (int64_t)item;
    flcol_integer wide = {(uint64_t)word, NUMBER >= FLCOL_I8 && word < 0 ? -1 : 0};
    return wide;
}

static ITEM FN(items)[CHUNKS * CHUNK];

/* Items in runs, chunk by chunk further from 0, of which the first is not sorted and the last is of nulls alone. */
static void FN(fill)(uint64_t *state) {
    for (size_t i = 0; i < CHUNKS * CHUNK; i++) {
        size_t k = i / CHUNK;
        uint64_t item = k == 0 ? random_below(state, 30) : 30 * k + i % CHUNK * 30 / CHUNK;
        if (k == 3) item = (uint64_t)0 - item; /* below 0, or near the greatest */
        FN(items)[i] = (ITEM)item;
        set_bit(validity, i, k == 1 || (k < CHUNKS - 1 && random_below(state, 5) != 0));
    }
}

static void FN(writes)(struct file *file, size_t from, size_t to) {
    static const char *const schemes[] = {"for(bitpacked)", "primitive", "delta", "rle", "constant"};
    for (size_t k = from; k < to; k++) {
        flcol_array plain = FLCOL_EMPTY, packed = FLCOL_EMPTY;
        CHECK(CALL(from)(FN(items) + k * CHUNK, CHUNK, validity + k * CHUNK / 8, CHUNK / 8, &plain) == FLCOL_OK);
        int32_t status = encode(&plain, schemes[k], &packed);
        CHECK(status == FLCOL_OK || cannot_keep(status));
        appended(file, status == FLCOL_OK ? &packed : &plain);
        flcol_free(&plain), flcol_free(&packed);
    }
}

/* Each chunk has its items, and what the foot says of it is what the array's own calls say. */
static void FN(has_chunks)(struct file *file, size_t count) {
    flcol_chunk chunks[CHUNKS], *one;
    CHECK(flcol_file_chunks(file->bytes, file->len, chunks, count) == FLCOL_OK);
    for (size_t k = 0; k < count; k++) {
        ITEM values[CHUNK], least = 0, greatest = 0;
        uint8_t valid[CHUNK / 8], none = 0, sorted = 0;
        flcol_array array = FLCOL_EMPTY;
        size_t nulls = 0;
        flcol_integer sum = {0, 0};
        one = &chunks[k];
        CHECK(flcol_file_chunk(file->bytes, file->len, one, &array) == FLCOL_OK);
        CHECK(CALL(read)(&array, values, CHUNK, valid, sizeof valid) == FLCOL_OK);
        CHECK(memcmp(valid, validity + k * CHUNK / 8, sizeof valid) == 0);
        for (size_t i = 0; i < CHUNK; i++) CHECK(!bit(valid, i) || values[i] == FN(items)[k * CHUNK + i]);
        CHECK(flcol_null_count(&array, &nulls) == FLCOL_OK && flcol_is_sorted(&array, 0, &sorted) == FLCOL_OK);
        CHECK(CALL(min_max)(&array, &least, &greatest, &none) == FLCOL_OK && none == (k == CHUNKS - 1));
        CHECK(NUMBER < FLCOL_I8 ? flcol_sum_unsigned(&array, (uint64_t *)&sum.high, &sum.low) == FLCOL_OK
                                : flcol_sum_signed(&array, &sum.high, &sum.low) == FLCOL_OK);
        CHECK(one->len == CHUNK && one->null_count == nulls && one->is_sorted == sorted && same(one->sum, sum));
        CHECK(same(one->least, FN(integer)(least)) && same(one->greatest, FN(integer)(greatest)));
        CHECK(one->offset % 64 == 0 && one->checksum == crc32c(file->bytes + one->offset, one->size));
        flcol_free(&array);
    }
}

/* How many items of some chunks pass a test. */
static size_t FN(passing)(size_t from, size_t to, int op, ITEM constant) {
    size_t count = 0;
    for (size_t i = from * CHUNK; i < to * CHUNK; i++) {
        ITEM item = FN(items)[i];
        int passes = op == FLCOL_EQ ? item == constant : op == FLCOL_NOT_EQ ? item != constant : op == FLCOL_GT ? item > constant :
                     op == FLCOL_GTE ? item >= constant : op == FLCOL_LT ? item < constant : item <= constant;
        count += is_valid(validity, i) && passes;
    }
    return count;
}

/* Plans say nothing that is not so, and counts are those of the items; constants that no item can have are compared too. */
static void FN(counts)(struct file *file, size_t count) {
    const flcol_integer far = {5, 1}, below = {5, -2};
    for (uint8_t op = FLCOL_EQ; op <= FLCOL_LTE; op++) {
        for (size_t at = 0; at < count * CHUNK; at += 97) {
            flcol_integer constant = FN(integer)(FN(items)[at]);
            uint8_t plan[CHUNKS];
            uint64_t passing = 0;
            CHECK(flcol_file_plan(file->bytes, file->len, op, &constant, plan, count) == FLCOL_OK);
            for (size_t k = 0; k < count; k++) {
                size_t some = FN(passing)(k, k + 1, op, FN(items)[at]), all = FN(passing)(k, k + 1, FLCOL_GTE, 0);
                if (NUMBER >= FLCOL_I8) all += FN(passing)(k, k + 1, FLCOL_LT, 0);
                CHECK(plan[k] != FLCOL_SKIP || some == 0);
                CHECK(plan[k] != FLCOL_ALL || some == all);
                CHECK(plan[k] <= FLCOL_ALL && (k < CHUNKS - 1 || plan[k] == FLCOL_SKIP));
            }
            CHECK(flcol_file_count_trusting(file->bytes, file->len, op, &constant, &passing) == FLCOL_OK);
            CHECK(passing == FN(passing)(0, count, op, FN(items)[at]));
        }
        uint64_t above = 0, under = 0, valid = 0, nulls = 0;
        CHECK(flcol_file_len_trusting(file->bytes, file->len, &valid) == FLCOL_OK && valid == count * CHUNK);
        CHECK(flcol_file_null_count_trusting(file->bytes, file->len, &nulls) == FLCOL_OK);
        CHECK(flcol_file_count_trusting(file->bytes, file->len, op, &far, &above) == FLCOL_OK);
        CHECK(flcol_file_count_trusting(file->bytes, file->len, op, &below, &under) == FLCOL_OK);
        CHECK(above == (op == FLCOL_NOT_EQ || op == FLCOL_LT || op == FLCOL_LTE ? valid - nulls : 0));
        CHECK(under == (op == FLCOL_NOT_EQ || op == FLCOL_GT || op == FLCOL_GTE ? valid - nulls : 0));
        CHECK(flcol_file_count_between_trusting(file->bytes, file->len, &below, &far, 1, 1, &above) == FLCOL_OK && above == valid - nulls);
    }
    for (size_t at = 0; at < count * CHUNK; at += 211) {
        ITEM lower = FN(items)[at], upper = FN(items)[count * CHUNK - 1 - at];
        flcol_integer from = FN(integer)(lower), to = FN(integer)(upper);
        uint64_t passing = 0;
        uint8_t plan[CHUNKS];
        size_t some = 0;
        for (size_t i = 0; i < count * CHUNK; i++)
            some += is_valid(validity, i) && FN(items)[i] >= lower && FN(items)[i] < upper;
        CHECK(flcol_file_count_between_trusting(file->bytes, file->len, &from, &to, 0, 1, &passing) == FLCOL_OK && passing == some);
        CHECK(flcol_file_plan_between(file->bytes, file->len, &from, &to, 0, 1, plan, count) == FLCOL_OK);
        for (size_t k = 0; k < count; k++) CHECK(plan[k] <= FLCOL_ALL && (plan[k] == FLCOL_SKIP || some > 0 || plan[k] == FLCOL_READ));
    }
}

/* What the whole file has is what its chunks have. */
static void FN(totals)(struct file *file, size_t count) {
    flcol_integer sum = {0, 0}, least, greatest, total = {0, 0};
    ITEM low = 0, high = 0;
    uint8_t none = 0;
    int found = 0;
    for (size_t i = 0; i < count * CHUNK; i++) {
        ITEM item = FN(items)[i];
        if (!is_valid(validity, i)) continue;
        low = !found || item < low ? item : low, high = !found || item > high ? item : high;
        total = added(total, FN(integer)(item)), found = 1;
    }
    CHECK(flcol_file_sum_trusting(file->bytes, file->len, &sum) == FLCOL_OK && same(sum, total));
    CHECK(flcol_file_min_max_trusting(file->bytes, file->len, &least, &greatest, &none) == FLCOL_OK && none == !found);
    CHECK(same(least, FN(integer)(low)) && same(greatest, FN(integer)(high)));
    CHECK(flcol_file_verify(file->bytes, file->len) == FLCOL_OK);
}

/* A file is written, read, gone on with, and read again. */
static void FN(files)(uint64_t *state) {
    struct file file;
    uint8_t dtype = 0;
    size_t count = 0;
    FN(fill)(state);
    begun(&file, NUMBER + FLCOL_NULLABLE);
    FN(writes)(&file, 0, 2), finished(&file);
    CHECK(flcol_file_look(file.bytes, file.len, &dtype, &count) == FLCOL_OK && dtype == NUMBER + FLCOL_NULLABLE && count == 2);
    FN(has_chunks)(&file, 2), FN(counts)(&file, 2), FN(totals)(&file, 2);
    FN(writes)(&file, 2, CHUNKS), finished(&file);
    CHECK(flcol_file_look(file.bytes, file.len, &dtype, &count) == FLCOL_OK && dtype == NUMBER + FLCOL_NULLABLE && count == CHUNKS);
    FN(has_chunks)(&file, CHUNKS), FN(counts)(&file, CHUNKS), FN(totals)(&file, CHUNKS);
    CHECK(file.len % 64 == 0);
    free(file.bytes);
}
