/* Files of chunks: written, read and gone on with for each type of items, beside plain loops; and files from strangers, of which
   each cut, each changed byte and what no writer says of chunks is refused, or answered as it was. It is C11 and C++17. */
#include "files.h"

/* How many chunks a file has here, and how many items each of them. */
enum { CHUNKS = 5, CHUNK = 1200 };

static uint8_t validity[CHUNKS * CHUNK / 8];

#define OF_TYPE "files_of_type.h"
#include "each_type.h"

/* Whether a status is one of those of files. */
static int is_of_files(int32_t status) {
    return FLCOL_FILE_TOO_SHORT <= status && status <= FLCOL_BAD_STATISTICS;
}

/* What can be asked of a file. */
struct answers {
    int32_t look, verify, count, chunk[2];
    uint8_t dtype;
    size_t chunks;
    uint64_t passing;
    int64_t items[2];
};

/* Asks for all that a file of two chunks of i32 has, of a copy of its bytes that is as long as they are. */
static struct answers asked(const uint8_t *bytes, size_t len) {
    const flcol_integer constant = {4, 0};
    struct answers answers;
    memset(&answers, 0, sizeof answers);
    uint8_t *copy = (uint8_t *)malloc(len + !len);
    CHECK(copy != NULL);
    memcpy(copy, bytes, len);
    answers.look = flcol_file_look(copy, len, &answers.dtype, &answers.chunks);
    answers.verify = flcol_file_verify(copy, len);
    answers.count = flcol_file_count_trusting(copy, len, FLCOL_GT, &constant, &answers.passing);
    if (answers.look == FLCOL_OK && answers.chunks == 2) {
        flcol_chunk chunks[2];
        CHECK(flcol_file_chunks(copy, len, chunks, 2) == FLCOL_OK && flcol_file_chunks(copy, len, chunks, 1) == FLCOL_WRONG_LENGTH);
        for (int k = 0; k < 2; k++) {
            flcol_array array = FLCOL_EMPTY;
            uint8_t none = 0;
            answers.chunk[k] = flcol_file_chunk(copy, len, &chunks[k], &array);
            if (answers.chunk[k] == FLCOL_OK) {
                uint64_t low = 0;
                CHECK(flcol_sum_signed(&array, &answers.items[k], &low) == FLCOL_OK);
                answers.items[k] = (int64_t)low, (void)none;
            }
            flcol_free(&array);
        }
    }
    free(copy);
    return answers;
}

/* No cut of a file is one, but the beginning that was a file: what is left of a cut file is found, and is that. */
static void cuts(void) {
    struct file file;
    small(&file);
    size_t before = file.len, end = 0;
    struct answers old = asked(file.bytes, before);
    CHECK(old.look == FLCOL_OK && old.verify == FLCOL_OK && old.passing == 3 && old.items[0] == 8 && old.items[1] == 201);
    const int32_t third[] = {5, 6};
    const uint8_t both[] = {3};
    flcol_array array = FLCOL_EMPTY;
    CHECK(flcol_from_i32(third, 2, both, 1, &array) == FLCOL_OK);
    appended(&file, &array), finished(&file), flcol_free(&array);
    for (size_t len = 0; len <= file.len; len++) {
        struct answers cut = asked(file.bytes, len);
        int32_t status = flcol_file_recover(file.bytes, len, &end);
        int is_whole = len == before || len == file.len;
        CHECK(is_whole ? cut.look == FLCOL_OK && cut.verify == FLCOL_OK : is_of_files(cut.look) && cut.verify == cut.look && cut.count == cut.look);
        if (len < before) CHECK(status == (len < 28 ? FLCOL_FILE_TOO_SHORT : FLCOL_BAD_MARK));
        else CHECK(status == FLCOL_OK && end == (len < file.len ? before : file.len));
        if (len == file.len) CHECK(cut.chunks == 3);
        else if (len >= before) {
            struct answers recovered = asked(file.bytes, end);
            CHECK(memcmp(&recovered, &old, sizeof old) == 0);
        }
    }
    free(file.bytes);
}

/* Where a byte of a file is another one, each answer is the true one or an error. */
static void changes(void) {
    static const uint8_t changed[] = {1, 2, 16, 128, 255};
    struct file file;
    small(&file);
    struct answers old = asked(file.bytes, file.len);
    for (size_t i = 0; i < file.len; i++) {
        for (size_t k = 0; k < sizeof changed; k++) {
            file.bytes[i] ^= changed[k];
            struct answers now = asked(file.bytes, file.len);
            file.bytes[i] ^= changed[k];
            CHECK(now.look == FLCOL_OK ? now.dtype == old.dtype && now.chunks == 2 : is_of_files(now.look));
            CHECK(now.verify == FLCOL_OK || is_of_files(now.verify));
            CHECK(now.count == FLCOL_OK ? now.passing == old.passing : is_of_files(now.count));
            for (int at = 0; at < 2 && now.look == FLCOL_OK; at++)
                CHECK(now.chunk[at] == FLCOL_OK ? now.items[at] == old.items[at] : now.chunk[at] == FLCOL_BAD_CHUNK);
            if (now.verify == FLCOL_OK) CHECK(memcmp(&now, &old, sizeof old) == 0);
        }
    }
    free(file.bytes);
}

/* A stranger's foot with a right checksum: `word` stands at the `at`-th byte of the body of the small file's foot. */
static int32_t with_word(size_t at, uint64_t word) {
    struct file file;
    const size_t body = 8 + 96 * 2;
    small(&file);
    put_word(file.bytes + file.len - 20 - body + at, word), sealed(&file, body);
    struct answers now = asked(file.bytes, file.len);
    size_t end = 0;
    CHECK(flcol_file_recover(file.bytes, file.len, &end) == (now.look == FLCOL_OK ? FLCOL_OK : FLCOL_BAD_MARK));
    free(file.bytes);
    return now.look == FLCOL_OK ? now.verify : now.look;
}

/* What no writer says of chunks. Entries begin behind the type, and have 96 bytes. */
static void strangers(void) {
    enum { FIRST = 8, SECOND = FIRST + 96 };
    struct file file;
    size_t count = 77, end = 0;
    uint8_t dtype = 77;
    small(&file);
    CHECK(with_word(0, FLCOL_I32 + FLCOL_NULLABLE) == FLCOL_OK && with_word(0, 8) == FLCOL_BAD_FIELD && with_word(0, 24) == FLCOL_BAD_FIELD);
    CHECK(with_word(0, UINT64_MAX) == FLCOL_BAD_FIELD && with_word(0, FLCOL_I32) == FLCOL_TYPE_MISMATCH);
    CHECK(with_word(0, FLCOL_I16 + FLCOL_NULLABLE) == FLCOL_TYPE_MISMATCH && with_word(0, FLCOL_U8) == FLCOL_BAD_FIELD);
    CHECK(with_word(FIRST, 0) == FLCOL_BAD_PLACE && with_word(FIRST, 65) == FLCOL_BAD_PLACE && with_word(FIRST, 1ull << 63) == FLCOL_BAD_PLACE);
    CHECK(with_word(FIRST, UINT64_MAX - 63) == FLCOL_BAD_PLACE && with_word(SECOND, 64) == FLCOL_BAD_PLACE);
    CHECK(with_word(SECOND, file.chunks[1].offset + 64) == FLCOL_BAD_PLACE && with_word(FIRST + 8, file.chunks[0].size - 1) == FLCOL_BAD_CHUNK);
    CHECK(with_word(FIRST + 8, UINT64_MAX) == FLCOL_BAD_PLACE && with_word(FIRST + 8, UINT64_MAX - 64 + 1) == FLCOL_BAD_PLACE);
    CHECK(with_word(FIRST + 8, 0) == FLCOL_BAD_CHUNK && with_word(SECOND + 8, file.len) == FLCOL_BAD_PLACE);
    CHECK(with_word(FIRST + 16, 1ull << 32) == FLCOL_BAD_FIELD && with_word(FIRST + 16, 0) == FLCOL_BAD_CHUNK);
    CHECK(with_word(FIRST + 24, 1ull << 63) == FLCOL_BAD_FIELD && with_word(FIRST + 24, 0) == FLCOL_BAD_FIELD);
    CHECK(with_word(FIRST + 24, 5) == FLCOL_BAD_STATISTICS && with_word(FIRST + 32, 5) == FLCOL_BAD_FIELD);
    CHECK(with_word(FIRST + 32, 0) == FLCOL_BAD_STATISTICS && with_word(FIRST + 40, 2) == FLCOL_BAD_FIELD);
    CHECK(with_word(FIRST + 40, 1) == FLCOL_BAD_STATISTICS && with_word(SECOND + 40, 0) == FLCOL_BAD_STATISTICS);
    CHECK(with_word(FIRST + 48, 1ull << 31) == FLCOL_BAD_FIELD && with_word(FIRST + 56, 0) == FLCOL_BAD_FIELD);
    CHECK(with_word(FIRST + 64, 10) == FLCOL_BAD_STATISTICS && with_word(FIRST + 80, 10) == FLCOL_BAD_STATISTICS);

    /* 2^57 chunks in a few bytes, a length that is no foot's, and ones of more bytes than there are; then one of no chunks. */
    static const uint64_t lengths[] = {16 + (96ull << 57), 17, 0, 15, UINT64_MAX, 16 + 96 * 50, 16 + (96ull << 32)};
    for (size_t k = 0; k < sizeof lengths / sizeof lengths[0]; k++) {
        put_word(file.bytes + file.len - 12, lengths[k]);
        CHECK(flcol_file_look(file.bytes, file.len, &dtype, &count) == FLCOL_BAD_FOOT_LENGTH && dtype == 77 && count == 77);
        CHECK(flcol_file_recover(file.bytes, file.len, &end) == FLCOL_BAD_MARK && end == 0);
    }
    put_word(file.bytes + file.len - 12, 16);
    CHECK(flcol_file_look(file.bytes, file.len, &dtype, &count) == FLCOL_BAD_FOOT_CHECKSUM && dtype == 77 && count == 77);
    CHECK(flcol_file_look(NULL, 0, &dtype, &count) == FLCOL_FILE_TOO_SHORT && flcol_file_recover(NULL, 0, &end) == FLCOL_FILE_TOO_SHORT);
    CHECK(flcol_file_verify(NULL, 0) == FLCOL_FILE_TOO_SHORT && end == 0);
    free(file.bytes);
}

/* Numbers that would not fit are refused: 2^64 items, and sums. */
static void overflows(void) {
    enum { BODY = 8 + 96 * 3 };
    struct file file;
    flcol_array array = FLCOL_EMPTY;
    const int32_t item = 7;
    const flcol_integer constant = {0, 0};
    uint64_t number = 77;
    flcol_integer sum = {77, 77};
    begun(&file, FLCOL_I32);
    CHECK(flcol_from_i32(&item, 1, NULL, 0, &array) == FLCOL_OK);
    for (int k = 0; k < 3; k++) appended(&file, &array);
    finished(&file), flcol_free(&array);
    uint8_t *body = file.bytes + file.len - 20 - BODY;
    for (int k = 0; k < 3; k++) put_word(body + 8 + 96 * k + 24, (1ull << 63) - 1), put_word(body + 8 + 96 * k + 88, 1ull << 62);
    sealed(&file, BODY);
    CHECK(flcol_file_len_trusting(file.bytes, file.len, &number) == FLCOL_LENGTH_OVERFLOW && number == 77);
    CHECK(flcol_file_sum_trusting(file.bytes, file.len, &sum) == FLCOL_LENGTH_OVERFLOW && sum.low == 77 && sum.high == 77);
    CHECK(flcol_file_count_trusting(file.bytes, file.len, FLCOL_GT, &constant, &number) == FLCOL_LENGTH_OVERFLOW && number == 77);
    CHECK(flcol_file_null_count_trusting(file.bytes, file.len, &number) == FLCOL_OK && number == 0);
    CHECK(flcol_file_verify(file.bytes, file.len) == FLCOL_BAD_STATISTICS);
    free(file.bytes);
}

/* What a caller says of chunks is looked at before it is written or followed. */
static void callers(void) {
    struct file file;
    flcol_array none = FLCOL_EMPTY, out = FLCOL_EMPTY;
    flcol_chunk chunk, chunks[2];
    const flcol_integer constant = {0, 0};
    uint8_t room[1000], plan[2] = {77, 77};
    size_t written = 77;
    uint64_t number = 77;
    small(&file);
    chunk = file.chunks[1];
    CHECK(flcol_file_append(&none, 4, room, sizeof room, &written, &chunk) == FLCOL_NO_ARRAY && written == 77);
    CHECK(flcol_file_plan(file.bytes, file.len, 6, &constant, plan, 2) == FLCOL_BAD_OPERATOR && plan[0] == 77);
    CHECK(flcol_file_plan(NULL, 0, 6, &constant, plan, 2) == FLCOL_BAD_OPERATOR && flcol_file_plan(NULL, 0, 5, &constant, plan, 2) == FLCOL_FILE_TOO_SHORT);
    CHECK(flcol_file_plan(file.bytes, file.len, 5, &constant, plan, 1) == FLCOL_WRONG_LENGTH && plan[0] == 77);
    CHECK(flcol_file_count_trusting(file.bytes, file.len, 6, &constant, &number) == FLCOL_BAD_OPERATOR && number == 77);

    static const struct {
        uint64_t offset, size;
    } outside[] = {{0, UINT64_MAX}, {UINT64_MAX, 1}, {UINT64_MAX, UINT64_MAX}, {1ull << 63, 1ull << 63}, {64, UINT64_MAX - 63}};
    for (size_t k = 0; k < sizeof outside / sizeof outside[0]; k++) {
        chunk.offset = outside[k].offset, chunk.size = outside[k].size;
        CHECK(flcol_file_chunk(file.bytes, file.len, &chunk, &out) == FLCOL_BAD_PLACE && out.at == NULL);
        chunks[0] = file.chunks[0], chunks[1] = chunk;
        CHECK(flcol_file_finish(file.dtype, chunks, 2, file.len, room, sizeof room, &written) == FLCOL_BAD_PLACE);
    }
    chunk = file.chunks[1], chunk.size = file.len - chunk.offset + 1;
    CHECK(flcol_file_chunk(file.bytes, file.len, &chunk, &out) == FLCOL_BAD_PLACE);
    chunk.size--;
    CHECK(flcol_file_chunk(file.bytes, file.len, &chunk, &out) == FLCOL_BAD_CHUNK);
    chunk.checksum = crc32c(file.bytes + chunk.offset, chunk.size);
    CHECK(flcol_file_chunk(file.bytes, file.len, &chunk, &out) == FLCOL_BAD_CONTAINER && out.at == NULL);
    chunk = file.chunks[1], chunk.checksum += 1ull << 32;
    CHECK(flcol_file_chunk(file.bytes, file.len, &chunk, &out) == FLCOL_BAD_CHUNK);
    chunks[0] = file.chunks[0], chunks[1] = chunk;
    CHECK(flcol_file_finish(file.dtype, chunks, 2, file.len, room, sizeof room, &written) == FLCOL_BAD_FIELD);
    chunks[1] = file.chunks[1], chunks[1].is_sorted = 2;
    CHECK(flcol_file_finish(file.dtype, chunks, 2, file.len, room, sizeof room, &written) == FLCOL_BAD_FIELD);
    chunks[1] = file.chunks[0], chunks[0] = file.chunks[1];
    CHECK(flcol_file_finish(file.dtype, chunks, 2, file.len, room, sizeof room, &written) == FLCOL_BAD_PLACE);
    chunks[1] = file.chunks[1], chunks[0] = file.chunks[0];
    CHECK(flcol_file_finish(file.dtype, chunks, 2, chunks[1].offset + chunks[1].size - 1, room, sizeof room, &written) == FLCOL_BAD_PLACE);
    CHECK(flcol_file_finish(FLCOL_BOOL, chunks, 2, file.len, room, sizeof room, &written) == FLCOL_UNKNOWN_TYPE);
    CHECK(flcol_file_finish(file.dtype, chunks, 2, (1ull << 63) - 200, room, sizeof room, &written) == FLCOL_FILE_TOO_LONG);
    CHECK(flcol_file_finish(file.dtype, chunks, 2, UINT64_MAX, room, sizeof room, &written) == FLCOL_FILE_TOO_LONG);
    CHECK(flcol_file_finish(file.dtype, NULL, 0, 3, room, sizeof room, &written) == FLCOL_BAD_PLACE && written == 77);
    CHECK(flcol_file_chunk(file.bytes, file.len, &file.chunks[0], &out) == FLCOL_OK);
    CHECK(flcol_file_append(&out, (1ull << 63) - 64, room, sizeof room, &written, &chunk) == FLCOL_FILE_TOO_LONG);
    CHECK(flcol_file_append(&out, UINT64_MAX, room, sizeof room, &written, &chunk) == FLCOL_FILE_TOO_LONG && written == 77);

    /* A file without a chunk. */
    memcpy(room, FLCOL_FILE_MARK, 4);
    CHECK(flcol_file_finish(FLCOL_U8, NULL, 0, 4, room + 4, FLCOL_FOOT_ROOM(0), &written) == FLCOL_OK && written == 60);
    CHECK(flcol_file_verify(room, 64) == FLCOL_OK && flcol_file_chunks(room, 64, NULL, 0) == FLCOL_OK);
    CHECK(flcol_file_len_trusting(room, 64, &number) == FLCOL_OK && number == 0);
    flcol_free(&out), free(file.bytes);
}

/* Booleans have no file. */
static void booleans(void) {
    const uint8_t bits = 5;
    flcol_array array = FLCOL_EMPTY;
    flcol_chunk chunk;
    uint8_t room[1000];
    size_t written = 77;
    CHECK(flcol_from_bool(&bits, 1, 3, NULL, 0, &array) == FLCOL_OK);
    CHECK(flcol_file_append(&array, 4, room, sizeof room, &written, &chunk) == FLCOL_NOT_INTEGER && written == 77);
    flcol_free(&array);
}

int main(void) {
    uint64_t state = 11;
    CHECK(sizeof(flcol_chunk) == 96 && sizeof(flcol_integer) == 16);
    files_u8(&state), files_u16(&state), files_u32(&state), files_u64(&state);
    files_i8(&state), files_i16(&state), files_i32(&state), files_i64(&state);
    cuts(), changes(), strangers(), overflows(), callers(), booleans();
    puts("each file was read, refused or recovered as it should");
    return 0;
}
