/* The library from C: the cost of a vector, also beacon by beacon and with a limit on spoiled samples, the bound of a box, and which line
 * each point belongs to.
 *
 *   tools/build capi
 *   cc -std=c99 -Wall -Iinclude examples/cost.c target/staticlib/libcapi.a -o target/cost && target/cost
 */
#include <stdio.h>
#include <string.h>
#include "vengutari.h"

#define POINTS 8
#define RECORD VENGUTARI_POINT_BYTES
#define ROUNDS 3

/* Two lines in one dimension; coefficients are halves (scale 1); distances count up to 3, which is 6 halves. */
static const uint8_t n = 2, d = 1, scale = 1, p = 1;
static const uint32_t eps = 6;
static const int16_t vector[8] = {4, -2};

/* Two lines through the origin, y = 2 x and y = -x, near both of which the first point lies, a point off both, and a sample that was not
 * taken. */
static const int16_t points[POINTS][2] = {{1, 2}, {2, 4}, {3, 6}, {-2, 2}, {4, -4}, {5, -5}, {3, 20}, {6, VENGUTARI_GAP_Y}};

/* A pass of the same points three times over: 24 records, so a full beacon and a part of one. */
static uint32_t print_beacons(const uint8_t *store)
{
    uint8_t pass[ROUNDS * POINTS * RECORD];
    uint64_t sums[VENGUTARI_MOST_BEACONS], total;
    for (int k = 0; k < ROUNDS; k++)
        memcpy(pass + k * POINTS * RECORD, store, POINTS * RECORD);
    uint32_t code = vengutari_cost_by_beacon(pass, sizeof pass, n, d, scale, p, eps, vector, 8, sums, VENGUTARI_MOST_BEACONS, &total);
    if (code != 0)
        return code;
    printf("cost by beacon");
    for (int g = 0; g * VENGUTARI_BEACON_RECORDS < ROUNDS * POINTS; g++)
        printf(" %llu", (unsigned long long)sums[g]);
    printf(", together %llu\n", (unsigned long long)total);
    return 0;
}

int main(void)
{
    uint8_t store[POINTS * RECORD];
    for (int i = 0; i < POINTS; i++) {
        const int16_t x[4] = {points[i][0], 0, 0, 0};
        vengutari_put_point(store + i * RECORD, x, points[i][1], (uint16_t)i);
    }

    uint64_t value = 0;

    uint32_t code = vengutari_cost(store, sizeof store, n, d, scale, p, eps, vector, 8, &value);
    if (code != 0)
        return printf("refused %u\n", (unsigned)VENGUTARI_NUMBER(code)), 1;
    printf("cost %llu\n", (unsigned long long)value);
    if ((code = print_beacons(store)) != 0)
        return printf("refused %u\n", (unsigned)VENGUTARI_NUMBER(code)), 1;

    /* With p = 3 it is the largest distance but for so many spoiled samples, here of none and of one. */
    for (uint32_t spoiled = 0; spoiled < 2; spoiled++) {
        code = vengutari_cost(store, sizeof store, n, d, scale, 3, spoiled, vector, 8, &value);
        if (code != 0)
            return printf("refused %u\n", (unsigned)VENGUTARI_NUMBER(code)), 1;
        printf("cost with %u spoiled %llu\n", (unsigned)spoiled, (unsigned long long)value);
    }

    /* No vector with line 1 from 0 to 8 and line 2 from -8 to -1 is cheaper than this. */
    const int16_t corners[16] = {0, -8, 0, 0, 0, 0, 0, 0, 8, -1};
    code = vengutari_bound(store, sizeof store, n, d, scale, p, eps, corners, 16, &value);
    if (code != 0)
        return printf("refused %u\n", (unsigned)VENGUTARI_NUMBER(code)), 1;
    printf("bound %llu\n", (unsigned long long)value);

    uint8_t labels[POINTS];
    code = vengutari_labels(store, sizeof store, n, d, scale, p, eps, vector, 8, labels, POINTS, &value);
    if (code != 0)
        return printf("refused %u\n", (unsigned)VENGUTARI_NUMBER(code)), 1;
    printf("labels");
    for (uint64_t i = 0; i < value; i++)
        printf(" %u", labels[i]);
    printf("\n");

    /* A stray field: record 4 has an x2, but one dimension is used. */
    store[4 * RECORD + 3] = 1;
    code = vengutari_cost(store, sizeof store, n, d, scale, p, eps, vector, 8, &value);
    printf("refused %u, record %u\n", (unsigned)VENGUTARI_NUMBER(code), (unsigned)VENGUTARI_RECORD(code));
    return 0;
}
