/* The C face of Roadfinch: this file compiles against include/roadfinch.h, links with libcapi.a, and checks the
 * specification's worked cases and one refusal of each number. Prints one closing line; exits with 1 where a check failed. */
#include <inttypes.h>
#include <stdio.h>
#include <string.h>

#include "roadfinch.h"

static int checks, failed;

#define CHECK(holds)                                                  \
    do {                                                              \
        checks++;                                                     \
        if (!(holds)) {                                               \
            failed++;                                                 \
            printf("ctest.c:%d: does not hold: %s\n", __LINE__, #holds); \
        }                                                             \
    } while (0)

#define COUNT(array) (sizeof(array) / sizeof *(array))

/* Whether the bytes from `from` on all hold `value`. */
static bool all(const void *bytes, size_t from, size_t to, unsigned char value)
{
    const unsigned char *at = bytes;
    for (size_t i = from; i < to; i++)
        if (at[i] != value)
            return false;
    return true;
}

/* The record of a set, and back. */
static void record(uint32_t n, const uint32_t *ids, size_t count, const uint8_t *bytes, size_t len)
{
    uint8_t out[64];
    uint32_t back[64];
    uint64_t written = 0, given = 0, taken = 0;

    memset(out, 0xAA, sizeof out);
    memset(back, 0xAA, sizeof back);
    CHECK(rf_write_record(n, ids, count, out, sizeof out, &written) == RF_OK);
    CHECK(written == len);
    CHECK(memcmp(out, bytes, len) == 0);
    CHECK(all(out, len, sizeof out, 0xAA));
    CHECK(rf_read_record(n, out, sizeof out, back, COUNT(back), &given, &taken) == RF_OK);
    CHECK(given == count && taken == len);
    CHECK(memcmp(back, ids, count * sizeof *ids) == 0);
    CHECK(all(back, count * sizeof *ids, sizeof back, 0xAA));

    /* Exactly enough space, and one byte or id less. */
    CHECK(rf_write_record(n, ids, count, out, len, &written) == RF_OK);
    memset(out, 0xAA, sizeof out);
    written = 77;
    CHECK(rf_write_record(n, ids, count, out, len - 1, &written) == RF_SPACE);
    CHECK(written == 77 && all(out, 0, sizeof out, 0xAA));
    if (count > 0) {
        given = taken = 77;
        memset(back, 0xAA, sizeof back);
        CHECK(rf_read_record(n, bytes, len, back, count - 1, &given, &taken) == RF_SPACE);
        CHECK(given == 77 && taken == 77 && all(back, 0, sizeof back, 0xAA));
    }
}

static void records(void)
{
    static const uint32_t ids[] = {0, 1, 2, 3, 4, 5, 6, 7};
    static const uint32_t five[] = {5}, ends[] = {0, 7}, six[] = {0, 1, 2, 4, 5, 6}, three[] = {3};

    record(8, ids, 0, (const uint8_t[]){0x01, 0x01}, 2);
    record(8, five, 1, (const uint8_t[]){0x02, 0x62, 0x01}, 3);
    record(8, ends, 2, (const uint8_t[]){0x02, 0x1A, 0x08}, 3);
    record(8, ids, 5, (const uint8_t[]){0x02, 0xF6, 0x03}, 3);
    record(8, six, 6, (const uint8_t[]){0x02, 0xDE, 0x18}, 3);
    record(8, ids, 8, (const uint8_t[]){0x01, 0x24}, 2);
    record(1, ids, 1, (const uint8_t[]){0x01, 0x02}, 2);
    record(7, three, 1, (const uint8_t[]){0x02, 0x82, 0x00}, 3);
}

static void record_refusals(void)
{
    uint8_t out[8] = {0};
    uint32_t ids[8] = {0};
    uint64_t a = 77, b = 77;
    static const uint32_t twice[] = {3, 3}, eight[] = {8};
    static const uint8_t empty[] = {0x01, 0x01}, cut[] = {0x02, 0x62}, group[] = {0x80, 0x00};
    static const uint8_t padding[] = {0x01, 0x03}, endless[] = {0x80, 0x80, 0x80, 0x80, 0x80};

    CHECK(rf_write_record(0, twice, 0, out, sizeof out, &a) == RF_COLORS);
    CHECK(rf_write_record(RF_MAX_COLORS + 1, twice, 0, out, sizeof out, &a) == RF_COLORS);
    CHECK(rf_write_record(8, twice, 2, out, sizeof out, &a) == RF_IDS);
    CHECK(rf_write_record(8, eight, 1, out, sizeof out, &a) == RF_IDS);
    CHECK(rf_read_record(0, empty, 2, ids, COUNT(ids), &a, &b) == RF_COLORS);
    CHECK(rf_read_record(8, empty, 0, ids, COUNT(ids), &a, &b) == RF_CUT);
    CHECK(rf_read_record(8, cut, 2, ids, COUNT(ids), &a, &b) == RF_CUT);
    CHECK(rf_read_record(8, endless, 4, ids, COUNT(ids), &a, &b) == RF_CUT);
    CHECK(rf_read_record(8, endless, 5, ids, COUNT(ids), &a, &b) == RF_DAMAGED);
    CHECK(rf_read_record(8, group, 2, ids, COUNT(ids), &a, &b) == RF_DAMAGED);
    CHECK(rf_read_record(8, padding, 2, ids, COUNT(ids), &a, &b) == RF_DAMAGED);
    CHECK(a == 77 && b == 77);
    CHECK(all(out, 0, sizeof out, 0) && all(ids, 0, sizeof ids, 0));
}

static void indexes(void)
{
    static const uint8_t file[] = {0x02, 0x62, 0x01, 0x02, 0x1A, 0x08};
    uint64_t out[4] = {9, 9, 9, 9};

    CHECK(rf_make_index(file, sizeof file, 2, out, 2) == RF_SPACE);
    CHECK(rf_make_index(file, sizeof file, UINT64_MAX, out, 4) == RF_SPACE);
    CHECK(rf_make_index(file, sizeof file, 3, out, 4) == RF_CUT);
    CHECK(rf_make_index(file, 5, 2, out, 4) == RF_CUT);
    CHECK(out[0] == 9 && out[1] == 9 && out[2] == 9 && out[3] == 9);
    CHECK(rf_make_index(file, sizeof file, 2, out, 4) == RF_OK);
    CHECK(out[0] == 0 && out[1] == 3 && out[2] == 6 && out[3] == 9);
    CHECK(rf_make_index(file, sizeof file, 0, out + 3, 1) == RF_OK);
    CHECK(out[3] == 0);
}

static void runs(void)
{
    const uint64_t a = 7, b = 9;
    const uint64_t list[] = {RF_RUN(0, a), RF_RUN(4, b)};
    uint64_t out[4] = {1, 1, 1, 1}, place[] = {RF_RUN(0, a), RF_RUN(4, b)};
    uint64_t count = 77, vertices = 77;

    CHECK(RF_OFFSET(list[1]) == 4 && RF_COORDINATE(list[1]) == b);
    CHECK(rf_reverse_runs(list, 2, RF_MAX_VERTICES + 1, out, 4, &count) == RF_VERTICES);
    CHECK(rf_reverse_runs(list, 2, 3, out, 4, &count) == RF_RUNS);
    CHECK(rf_reverse_runs(list, 2, 10, out, 1, &count) == RF_SPACE);
    CHECK(rf_reverse_runs_in_place(place, 2, 3, &count) == RF_RUNS);
    CHECK(count == 77 && out[0] == 1 && place[0] == list[0] && place[1] == list[1]);
    CHECK(rf_reverse_runs(list, 2, 10, out, 4, &count) == RF_OK && count == 2);
    CHECK(out[0] == RF_RUN(0, b) && out[1] == RF_RUN(6, a) && out[2] == 1);
    CHECK(rf_reverse_runs_in_place(place, 2, 10, &count) == RF_OK && count == 2);
    CHECK(place[0] == out[0] && place[1] == out[1]);

    CHECK(rf_rotate_runs(list, 2, 10, 14, false, out, 4, &count) == RF_OK && count == 2);
    CHECK(out[0] == RF_RUN(0, b) && out[1] == RF_RUN(6, a) && out[2] == 1);
    CHECK(rf_rotate_runs(list, 2, 10, 2, false, out, 4, &count) == RF_OK && count == 3);
    CHECK(out[0] == RF_RUN(0, a) && out[1] == RF_RUN(2, b) && out[2] == RF_RUN(8, a) && out[3] == 1);
    /* Reversed it is (0,b)(6,a); turned by 2: (0,b)(4,a)(8,b). */
    CHECK(rf_rotate_runs(list, 2, 10, 2, true, out, 4, &count) == RF_OK && count == 3);
    CHECK(out[0] == RF_RUN(0, b) && out[1] == RF_RUN(4, a) && out[2] == RF_RUN(8, b) && out[3] == 1);
    CHECK(rf_rotate_runs(list, 2, 10, 2, false, out, 2, &count) == RF_SPACE);

    const uint64_t piece[] = {RF_RUN(0, a), RF_RUN(2, b)}, other[] = {RF_RUN(0, b), RF_RUN(2, a)};
    out[0] = RF_RUN(0, a);
    out[1] = out[2] = 1;
    CHECK(rf_append_runs(out, 4, 1, 3, piece, 2, 5, false, &count, &vertices) == RF_OK);
    CHECK(count == 2 && vertices == 7);
    CHECK(out[0] == RF_RUN(0, a) && out[1] == RF_RUN(4, b) && out[2] == 1);
    CHECK(rf_append_runs(out, 4, 1, 3, other, 2, 5, true, &count, &vertices) == RF_OK);
    CHECK(count == 2 && vertices == 7);
    CHECK(out[0] == RF_RUN(0, a) && out[1] == RF_RUN(5, b) && out[2] == 1);
    CHECK(rf_append_runs(out, 4, 1, 1, other, 1, 2, false, &count, &vertices) == RF_OK);
    CHECK(count == 2 && vertices == 2);
    CHECK(out[0] == RF_RUN(0, a) && out[1] == RF_RUN(0, b) && out[2] == 1);

    count = vertices = 77;
    CHECK(rf_append_runs(out, 1, 2, 0, piece, 2, 0, false, &count, &vertices) == RF_SPACE);
    CHECK(rf_append_runs(out, 4, 1, 0, piece, 2, 5, false, &count, &vertices) == RF_VERTICES);
    CHECK(rf_append_runs(out, 4, 1, RF_MAX_VERTICES, piece, 2, 5, false, &count, &vertices) == RF_VERTICES);
    CHECK(rf_append_runs(out, 4, 0, 1, piece, 2, 5, false, &count, &vertices) == RF_RUNS);
    CHECK(rf_append_runs(out, 4, 1, 1, piece, 0, 5, false, &count, &vertices) == RF_RUNS);
    CHECK(rf_append_runs(out, 1, 1, 1, piece, 2, 5, false, &count, &vertices) == RF_SPACE);
    CHECK(count == 77 && vertices == 77 && out[1] == RF_RUN(0, b) && out[2] == 1);
}

/* Of equal neighbours the first stays, of which the output's last run can be one. */
static void merged(void)
{
    const uint64_t piece[] = {RF_RUN(0, 7), RF_RUN(1, 7), RF_RUN(2, 9), RF_RUN(3, 9)};
    uint64_t out[] = {RF_RUN(0, 7), 1, 1, 1}, count = 77, vertices = 77;

    CHECK(rf_append_runs(out, 1, 1, 3, piece, 4, 5, false, &count, &vertices) == RF_SPACE);
    CHECK(count == 77 && vertices == 77);
    CHECK(rf_append_runs(out, 2, 1, 3, piece, 4, 5, false, &count, &vertices) == RF_OK);
    CHECK(count == 2 && vertices == 7);
    CHECK(out[0] == RF_RUN(0, 7) && out[1] == RF_RUN(4, 9) && out[2] == 1);
    CHECK(rf_append_runs(out, 3, 1, 3, piece, 4, 5, true, &count, &vertices) == RF_OK);
    CHECK(count == 3 && vertices == 7);
    CHECK(out[0] == RF_RUN(0, 7) && out[1] == RF_RUN(2, 9) && out[2] == RF_RUN(5, 7) && out[3] == 1);
    /* One worker doesn't make two coordinates one. */
    const uint64_t other[] = {RF_RUN(0, 7 + 256), RF_RUN(1, 7)};
    CHECK(rf_append_runs(out, 4, 1, 1, other, 2, 2, false, &count, &vertices) == RF_OK);
    CHECK(count == 3 && vertices == 2);
    CHECK(out[0] == RF_RUN(0, 7) && out[1] == RF_RUN(0, 7 + 256) && out[2] == RF_RUN(1, 7) && out[3] == 1);
}

static void run_bytes(void)
{
    const uint64_t list[] = {RF_RUN(4, 258)};
    static const uint8_t bytes[] = {0x01, 0x04, 0x00, 0x00, 0x02, 0x01, 0x00, 0x00, 0x00};
    uint8_t out[10];
    uint64_t back[2] = {1, 1}, a = 77, b = 77;

    memset(out, 0xAA, sizeof out);
    CHECK(rf_write_runs(list, 1, out, 8, &a) == RF_SPACE && a == 77 && out[0] == 0xAA);
    CHECK(rf_write_runs(list, 1, out, sizeof out, &a) == RF_OK && a == 9);
    CHECK(memcmp(out, bytes, 9) == 0 && out[9] == 0xAA);
    a = 77;
    CHECK(rf_read_runs(out, 8, back, 2, &a, &b) == RF_CUT);
    CHECK(rf_read_runs((const uint8_t[]){0x81, 0x00}, 2, back, 2, &a, &b) == RF_DAMAGED);
    CHECK(rf_read_runs(out, sizeof out, back, 0, &a, &b) == RF_SPACE);
    CHECK(a == 77 && b == 77 && back[0] == 1);
    CHECK(rf_read_runs(out, sizeof out, back, 2, &a, &b) == RF_OK && a == 1 && b == 9);
    CHECK(back[0] == list[0] && back[1] == 1);
}

int main(void)
{
    records();
    record_refusals();
    indexes();
    runs();
    merged();
    run_bytes();
    printf("ctest: %d checks, %d failed\n", checks, failed);
    return failed != 0;
}
