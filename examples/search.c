/* The library from C: a search, its answer as a record, and the line that it found as single-precision coefficients.
 *
 *   tools/build capi
 *   cc -std=c99 -Wall -Iinclude examples/search.c target/staticlib/libcapi.a -o target/search && target/search
 */
#include <stdio.h>
#include "vengutari.h"

#define POINTS 3
#define RECORD VENGUTARI_POINT_BYTES
#define ROWS 4

/* One line in one dimension. */
static const uint8_t n = 1, d = 1, scale = 0;

/* What a search is lent for its results; the numbers are C, L, the split count, the open boxes and the peak. */
struct found {
    int16_t vector[8];
    uint64_t numbers[5];
    uint64_t kind;
};

/* w from 0 to 3; distances count up to 2; at most 10 splits, in a table of 4 rows with their bounds. */
static uint32_t search(const uint8_t *store, size_t length, const int16_t *start, struct found *found)
{
    const uint8_t p = 1;
    const uint32_t eps = 2, budget = 10;
    const uint64_t tolerance = 0;
    const int16_t corners[16] = {0, 0, 0, 0, 0, 0, 0, 0, 3};
    int16_t table[ROWS * 16];
    uint64_t bounds[ROWS];
    return vengutari_search(store, length, n, d, scale, p, eps, tolerance, budget, corners, 16, start, 8, table, ROWS * 16,
                            bounds, ROWS, found->vector, 8, found->numbers, 5, &found->kind);
}

static void print_answer(const struct found *found)
{
    const char *const kinds[4] = {"", "solved", "spent", "full"};
    const char *const names[5] = {"cost", "bound", "splits", "open", "peak"};
    printf("%s", kinds[found->kind]);
    for (int k = 0; k < 5; k++)
        printf(" %s=%llu", names[k], (unsigned long long)found->numbers[k]);
    printf(" w=%d\n", found->vector[0]);
}

/* The answer as a record of 40 bytes. */
static uint32_t print_record(const struct found *found)
{
    uint8_t record[VENGUTARI_ANSWER_BYTES];
    const uint64_t *numbers = found->numbers;
    uint32_t code = vengutari_write_answer(found->vector, 8, numbers[0], numbers[1], (uint32_t)numbers[2], (uint8_t)found->kind,
                                           n, d, scale, record, sizeof record);
    if (code != 0)
        return code;
    printf("record ");
    for (size_t k = 0; k < sizeof record; k++)
        printf("%02X", record[k]);
    printf("\n");
    return 0;
}

/* The line that was found as four single-precision coefficients, by their bits. */
static uint32_t print_line(const struct found *found)
{
    uint32_t patterns[4];
    uint32_t code = vengutari_write_line(d, scale, found->vector, 4, patterns, 4);
    if (code == 0)
        printf("line %08X %08X %08X %08X\n", (unsigned)patterns[0], (unsigned)patterns[1], (unsigned)patterns[2], (unsigned)patterns[3]);
    return code;
}

static int refused(uint32_t code)
{
    printf("refused %u\n", (unsigned)VENGUTARI_NUMBER(code));
    return 1;
}

int main(void)
{
    /* Three points with x = 1: two near y = 2, and one far off. */
    const int16_t x[4] = {1, 0, 0, 0}, y[POINTS] = {2, 2, 9};
    uint8_t store[POINTS * RECORD];
    for (int i = 0; i < POINTS; i++)
        vengutari_put_point(store + i * RECORD, x, y[i], 0);

    const int16_t start[8] = {0};
    struct found found;
    uint32_t code = search(store, sizeof store, start, &found);
    if (code != 0)
        return refused(code);
    print_answer(&found);
    if ((code = print_record(&found)) != 0 || (code = print_line(&found)) != 0)
        return refused(code);

    /* A start outside the box is refused, and nothing that was lent is written. */
    const int16_t outside[8] = {4};
    refused(search(store, sizeof store, outside, &found));
    return 0;
}
