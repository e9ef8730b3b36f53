/* Reading and printing lines, for one type of items (each_type.h). */

/* The array of lines, of which there are `n`. */
static int32_t FN(parse)(const char *lines, size_t n, int nullable, flcol_array *out) {
    ITEM *values = (ITEM *)calloc(n + 1, sizeof(ITEM));
    uint8_t *validity = (uint8_t *)calloc(n / 8 + 1, 1);
    CHECK(values != NULL && validity != NULL);
    for (size_t i = 0; i < n; i++, lines = strchr(lines, '\n') + 1) {
        int is_null = strncmp(lines, "null\n", 5) == 0;
        set_bit(validity, i, !is_null);
        if (!is_null) values[i] = *lines == '-' ? (ITEM)strtoll(lines, NULL, 10) : (ITEM)strtoull(lines, NULL, 10);
    }
    int32_t status = CALL(from)(values, n, nullable ? validity : NULL, nullable ? n / 8 + 1 : 0, out);
    free(values), free(validity);
    return status;
}

static int32_t FN(print)(flcol_array *array, size_t n) {
    ITEM *values = (ITEM *)calloc(n + 1, sizeof(ITEM));
    uint8_t *validity = (uint8_t *)calloc(n / 8 + 1, 1);
    CHECK(values != NULL && validity != NULL);
    int32_t status = CALL(read)(array, values, n, validity, (n + 7) / 8);
    for (size_t i = 0; i < n && status == FLCOL_OK; i++) {
        if (!bit(validity, i)) puts("null");
        else if (values[i] < 0) printf("%lld\n", (long long)values[i]);
        else printf("%llu\n", (unsigned long long)values[i]);
    }
    free(values), free(validity);
    return status;
}
