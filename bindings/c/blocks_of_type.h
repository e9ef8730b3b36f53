/* The kernels over whole blocks beside plain loops over the layout that flcol.h states, for one type of words (each_type.h). */
#define WORD_BITS (8 * sizeof(ITEM))
#define LANES (BLOCK / WORD_BITS)
#define LOW_BITS(item, width) ((width) < WORD_BITS ? (ITEM)((item) & (((ITEM)1 << (width)) - 1)) : (item))

static ITEM FN(items)[BLOCKS * BLOCK], FN(expected)[BLOCKS * BLOCK], FN(made)[BLOCKS * BLOCK + 1], FN(bases)[BLOCKS * LANES];

static void FN(marked)(void) {
    memset(FN(made), UNWRITTEN, sizeof FN(made));
}

/* Whether the first of the made words are the expected ones, and none was written behind them. */
static void FN(is_expected)(size_t count) {
    CHECK(count == 0 || memcmp(FN(made), FN(expected), count * sizeof(ITEM)) == 0);
    CHECK(unwritten(FN(made) + count, sizeof FN(made) - count * sizeof(ITEM)));
}

/* Bit b of the item at row r of lane l is bit r * width + b of the lane's words. */
static void FN(pack_by_bits)(size_t width) {
    memset(FN(expected), 0, sizeof FN(expected));
    for (size_t at = 0; at < BLOCKS * BLOCK * width; at++) {
        size_t k = at / (BLOCK * width), l = at / (WORD_BITS * width) % LANES, s = at % (WORD_BITS * width);
        ITEM set = FN(items)[k * BLOCK + place(s / width, l)] >> (s % width) & 1;
        ITEM *word = &FN(expected)[k * width * LANES + s / WORD_BITS * LANES + l];
        *word = (ITEM)(*word | set << (s % WORD_BITS));
    }
}

static void FN(packs_at)(size_t width) {
    static ITEM packed[BLOCKS * BLOCK];
    size_t words = BLOCKS * width * LANES;
    ITEM reference = (ITEM)(FN(items)[7] | 1);
    FN(pack_by_bits)(width), FN(marked)();
    CHECK(CALL(pack)(width, FN(items), BLOCKS, FN(made), words + 1) == FLCOL_WRONG_LENGTH);
    if (words) CHECK(CALL(pack)(width, FN(items), BLOCKS, FN(made), words - 1) == FLCOL_WRONG_LENGTH);
    FN(is_expected)(0);
    CHECK(CALL(pack)(width, FN(items), BLOCKS, FN(made), words) == FLCOL_OK);
    FN(is_expected)(words);
    memcpy(packed, FN(made), sizeof packed);

    FN(marked)();
    CHECK(CALL(unpack)(width, packed, words + 1, FN(made), BLOCKS) == FLCOL_WRONG_LENGTH);
    CHECK(CALL(unfor_pack)(width, packed, words + 1, reference, FN(made), BLOCKS) == FLCOL_WRONG_LENGTH);
    FN(is_expected)(0);
    for (size_t i = 0; i < BLOCKS * BLOCK; i++) FN(expected)[i] = LOW_BITS(FN(items)[i], width);
    CHECK(CALL(unpack)(width, packed, words, FN(made), BLOCKS) == FLCOL_OK);
    FN(is_expected)(BLOCKS * BLOCK);
    for (size_t i = 0; i < BLOCKS * BLOCK; i++) FN(expected)[i] = (ITEM)(FN(expected)[i] + reference);
    CHECK(CALL(unfor_pack)(width, packed, words, reference, FN(made), BLOCKS) == FLCOL_OK);
    FN(is_expected)(BLOCKS * BLOCK);
}

static void FN(refuses_widths)(void) {
    FN(marked)();
    for (size_t width = WORD_BITS + 1; width > WORD_BITS; width *= 2) {
        CHECK(CALL(pack)(width, FN(items), BLOCKS, FN(made), 1) == FLCOL_WIDTH_TOO_LARGE);
        CHECK(CALL(unpack)(width, FN(items), 1, FN(made), BLOCKS) == FLCOL_WIDTH_TOO_LARGE);
        CHECK(CALL(unfor_pack)(width, FN(items), 1, 1, FN(made), BLOCKS) == FLCOL_WIDTH_TOO_LARGE);
    }
    FN(is_expected)(0);
    CHECK(CALL(pack)(WORD_BITS, NULL, 0, NULL, 0) == FLCOL_OK && CALL(unpack)(0, NULL, 0, NULL, 0) == FLCOL_OK);
    CHECK(CALL(unfor_pack)(1, NULL, 0, 1, NULL, 0) == FLCOL_OK);
}

static void FN(transposes)(void) {
    for (size_t i = 0; i < BLOCKS * BLOCK; i++) {
        size_t k = i / BLOCK, l = i % BLOCK / WORD_BITS, r = i % WORD_BITS;
        FN(expected)[k * BLOCK + place(r, l)] = FN(items)[k * BLOCK + segment(l) + r];
    }
    FN(marked)();
    CHECK(CALL(transpose)(FN(items), BLOCKS, FN(made), BLOCKS - 1) == FLCOL_WRONG_LENGTH);
    CHECK(CALL(untranspose)(FN(items), BLOCKS - 1, FN(made), BLOCKS) == FLCOL_WRONG_LENGTH);
    FN(is_expected)(0);
    CHECK(CALL(transpose)(FN(items), BLOCKS, FN(made), BLOCKS) == FLCOL_OK);
    FN(is_expected)(BLOCKS * BLOCK);
    FN(marked)();
    CHECK(CALL(untranspose)(FN(expected), BLOCKS, FN(made), BLOCKS) == FLCOL_OK);
    CHECK(memcmp(FN(made), FN(items), sizeof FN(items)) == 0);
    CHECK(CALL(transpose)(NULL, 0, NULL, 0) == FLCOL_OK && CALL(untranspose)(NULL, 0, NULL, 0) == FLCOL_OK);
}

static void FN(subtracts)(void) {
    static ITEM deltas[BLOCKS * BLOCK];
    for (size_t i = 0; i < BLOCKS * BLOCK; i++) {
        size_t k = i / BLOCK, l = i % BLOCK / WORD_BITS, r = i % WORD_BITS;
        ITEM before = r ? FN(items)[k * BLOCK + place(r - 1, l)] : FN(bases)[k * LANES + l];
        FN(expected)[k * BLOCK + place(r, l)] = (ITEM)(FN(items)[k * BLOCK + place(r, l)] - before);
    }
    FN(marked)();
    CHECK(CALL(delta)(FN(items), BLOCKS, FN(bases), BLOCKS * LANES - 1, FN(made), BLOCKS) == FLCOL_WRONG_LENGTH);
    CHECK(CALL(delta)(FN(items), BLOCKS, FN(bases), BLOCKS * LANES, FN(made), BLOCKS - 1) == FLCOL_WRONG_LENGTH);
    CHECK(CALL(undelta)(FN(items), BLOCKS, FN(bases), BLOCKS * LANES - 1, FN(made), BLOCKS) == FLCOL_WRONG_LENGTH);
    CHECK(CALL(undelta)(FN(items), BLOCKS, FN(bases), BLOCKS * LANES, FN(made), BLOCKS - 1) == FLCOL_WRONG_LENGTH);
    FN(is_expected)(0);
    CHECK(CALL(delta)(FN(items), BLOCKS, FN(bases), BLOCKS * LANES, FN(made), BLOCKS) == FLCOL_OK);
    FN(is_expected)(BLOCKS * BLOCK);
    memcpy(deltas, FN(made), sizeof deltas), FN(marked)();
    CHECK(CALL(undelta)(deltas, BLOCKS, FN(bases), BLOCKS * LANES, FN(made), BLOCKS) == FLCOL_OK);
    CHECK(memcmp(FN(made), FN(items), sizeof FN(items)) == 0);
    CHECK(CALL(delta)(NULL, 0, NULL, 0, NULL, 0) == FLCOL_OK && CALL(undelta)(NULL, 0, NULL, 0, NULL, 0) == FLCOL_OK);
}

static void FN(blocks)(void) {
    uint64_t state = NUMBER + 3;
    for (size_t i = 0; i < BLOCKS * BLOCK; i++) FN(items)[i] = (ITEM)(random_below(&state, UINT64_MAX) * 0x9E3779B97F4A7C15u);
    for (size_t i = 0; i < BLOCKS * LANES; i++) FN(bases)[i] = (ITEM)(random_below(&state, UINT64_MAX) * 0x9E3779B97F4A7C15u);
    for (size_t width = 0; width <= WORD_BITS; width++) FN(packs_at)(width);
    FN(refuses_widths)();
    FN(transposes)();
    FN(subtracts)();
}
#undef WORD_BITS
#undef LANES
#undef LOW_BITS
