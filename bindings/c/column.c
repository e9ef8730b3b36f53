/* Columns of text to containers and back, with the words of the program `flcol`:

       column encode i32? 'for(bitpacked)' < lines > container
       column decode < container > lines */
#include "checking.h"

#pragma GCC diagnostic ignored "-Wtype-limits"
#define OF_TYPE "column_of_type.h"
#include "each_type.h"

static const struct {
    const char *name;
    int32_t (*parse)(const char *lines, size_t n, int nullable, flcol_array *out);
    int32_t (*print)(flcol_array *array, size_t n);
} TYPES[] = {{"u8", parse_u8, print_u8}, {"u16", parse_u16, print_u16}, {"u32", parse_u32, print_u32},
             {"u64", parse_u64, print_u64}, {"i8", parse_i8, print_i8}, {"i16", parse_i16, print_i16},
             {"i32", parse_i32, print_i32}, {"i64", parse_i64, print_i64}};

/* All of standard input, with a 0 behind it. */
static char *read_all(size_t *len) {
    size_t room = 1 << 16;
    char *input = (char *)malloc(room);
    *len = 0;
    while (input != NULL && (*len += fread(input + *len, 1, room - 1 - *len, stdin)) == room - 1)
        input = (char *)realloc(input, room *= 2);
    CHECK(input != NULL);
    input[*len] = 0;
    return input;
}

static size_t count_lines(const char *lines) {
    size_t n = 0;
    for (; (lines = strchr(lines, '\n')) != NULL; lines++) n++;
    return n;
}

/* Writes an array as a container. */
static int32_t write_container(flcol_array *array) {
    size_t len;
    int32_t status = flcol_serialized_len(array, &len);
    if (status != FLCOL_OK) return status;
    uint8_t *container = (uint8_t *)malloc(len);
    CHECK(container != NULL);
    status = flcol_serialize(array, container, len, &len);
    if (status == FLCOL_OK) CHECK(fwrite(container, 1, len, stdout) == len);
    free(container);
    return status;
}

static int32_t encode_lines(const char *type, const char *scheme) {
    flcol_array plain = {NULL}, encoded = {NULL};
    size_t len, name = strcspn(type, "?"), t = 0;
    char *lines = read_all(&len);
    while (t < 8 && (strlen(TYPES[t].name) != name || memcmp(TYPES[t].name, type, name) != 0)) t++;
    int32_t status = t == 8 ? FLCOL_UNKNOWN_TYPE : TYPES[t].parse(lines, count_lines(lines), type[name] == '?', &plain);
    if (status == FLCOL_OK) status = encode(&plain, scheme, &encoded);
    if (status == FLCOL_OK) status = write_container(&encoded);
    free(lines), flcol_free(&plain), flcol_free(&encoded);
    return status;
}

static int32_t decode_container(void) {
    flcol_array array = {NULL};
    size_t len;
    uint8_t dtype;
    char *container = read_all(&len);
    int32_t status = flcol_deserialize((const uint8_t *)container, len, &array);
    free(container);
    if (status == FLCOL_OK) status = flcol_dtype(&array, &dtype);
    if (status == FLCOL_OK) status = flcol_len(&array, &len);
    if (status == FLCOL_OK) status = dtype % FLCOL_NULLABLE < 8 ? TYPES[dtype % FLCOL_NULLABLE].print(&array, len) : FLCOL_NOT_INTEGER;
    flcol_free(&array);
    return status;
}

int main(int words, char **word) {
    int32_t status;
    if (words == 4 && strcmp(word[1], "encode") == 0) status = encode_lines(word[2], word[3]);
    else if (words == 2 && strcmp(word[1], "decode") == 0) status = decode_container();
    else return fputs("usage: column encode TYPE SCHEME | column decode\n", stderr), 2;
    if (status != FLCOL_OK) fprintf(stderr, "error %d %s\n", (int)status, flcol_status_name(status));
    return status != FLCOL_OK;
}
