/* How much stack the calls take, against what include/vengutari.h says: each runs on a stack that was filled before, and what it left of
 * that is counted. The last line is 'N passed, M failed'. */
#include "vengutari.h"
#include <stdio.h>
#include <stdlib.h>
#include <string.h>
#include <ucontext.h>

enum { ROOM = 1 << 20, RECORDS = 4096, ROWS = 64, FILLED = 0xA5 };

static unsigned char stack[ROOM];
static uint8_t store[12 * RECORDS], labels[RECORDS], records[40 * 3], registers[VENGUTARI_REGISTERS];
static int16_t table[16 * ROWS], found[8], peeled[32];
static uint64_t bounds[ROWS], sums[216], numbers[5], rounds[24], slots[48], value;
static uint8_t job[72], cases[8];
static int16_t vectors[64];
static uint32_t codes[8], budgets[8], patterns[16];
static const int16_t vector[8] = {3, -2, 5, 1}, corners[16] = {-4, -4, -4, -4, 0, 0, 0, 0, 7, 7, 7, 7};
static uint8_t p;
static uint32_t eps, code;
static ucontext_t here, there;

static void cost(void) { code = vengutari_cost(store, sizeof store, 2, 2, 7, p, eps, vector, 8, &value); }
static void bound(void) { code = vengutari_bound(store, sizeof store, 2, 2, 7, p, eps, corners, 16, &value); }
static void by_beacon(void) { code = vengutari_cost_by_beacon(store, sizeof store, 2, 2, 7, p, eps, vector, 8, sums, 216, &value); }
static void label(void) { code = vengutari_labels(store, sizeof store, 2, 2, 7, p, eps, vector, 8, labels, RECORDS, &value); }
static void search(void)
{
    code = vengutari_search(store, sizeof store, 2, 2, 7, p, eps, 0, 40, corners, 16, vector, 8, table, 16 * ROWS, bounds, ROWS, found, 8,
                            numbers, 5, &value);
}
static void windows(void)
{
    code = vengutari_windows(store, sizeof store, 2, 2, 7, p, eps, 0, 40, corners, 16, vector, 8, RECORDS - 2, 1, table, 16 * ROWS, bounds,
                             ROWS, records, sizeof records, &value);
}

static void boards(void)
{
    static const uint32_t length[1] = {sizeof store};
    if (vengutari_write_job(2, 2, 7, p, eps, 0, 40, 0, corners, 16, vector, 8, job, sizeof job) != 0)
        abort();
    code = vengutari_boards(1, 40, job, sizeof job, store, sizeof store, length, 1, table, 16 * ROWS, bounds, ROWS, codes, 8, budgets, 8,
                            vectors, 64, slots, 48);
    if (code == 0)
        code = codes[0];
}

/* The same search by the registers of the data bus. */
static void run(void)
{
    uint8_t record[72];
    vengutari_reset(registers, sizeof registers);
    vengutari_write_job(2, 2, 7, p, eps, 0, 40, ROWS, corners, 16, vector, 8, record, sizeof record);
    for (size_t k = 0; k < sizeof record; k++)
        vengutari_write_register(registers, sizeof registers, 64 + k, record[k], store, sizeof store, table, 16 * ROWS, bounds, ROWS);
    code = vengutari_write_register(registers, sizeof registers, 0, VENGUTARI_COMMAND_RUN, store, sizeof store, table, 16 * ROWS, bounds,
                                    ROWS);
    vengutari_read_register(registers, sizeof registers, 1, &value);
    if (value != VENGUTARI_FLAG_DONE)
        code = 1;
}

static void ranges(void)
{
    code = vengutari_ranges(store, sizeof store, 2, 2, 7, p, eps, 40, UINT64_MAX, corners, 16, vector, 8, table, 16 * ROWS, patterns, 16,
                            cases, 8, numbers, 3, &value);
}
static void peel(void)
{
    static const int16_t start[8] = {3, -2}, domain[16] = {-4, -4, 0, 0, 0, 0, 0, 0, 7, 7};
    code = vengutari_peel(store, sizeof store, 1, 2, 7, 0, eps, 0, 4000, domain, 16, start, 8, 4, table, 16 * ROWS, bounds, ROWS, labels,
                          RECORDS, peeled, 32, rounds, 24, &value);
}

/* How many bytes of stack a call takes, or ROOM where it is refused. */
static size_t taken(void (*call)(void))
{
    size_t left = 0;
    memset(stack, FILLED, sizeof stack);
    getcontext(&there);
    there.uc_stack.ss_sp = stack;
    there.uc_stack.ss_size = sizeof stack;
    there.uc_link = &here;
    makecontext(&there, call, 0);
    swapcontext(&here, &there);
    while (left < sizeof stack && stack[left] == FILLED)
        left++;
    return code == 0 ? sizeof stack - left : ROOM;
}

int main(void)
{
    static const struct { const char *name; void (*call)(void); size_t sum, rank; } calls[] = {
        {"cost", cost, 8000, 45000}, {"bound", bound, 8000, 45000}, {"search", search, 190000, 220000},
        {"windows", windows, 190000, 220000}, {"boards", boards, 195000, 225000}, {"write_register", run, 190000, 220000},
        {"ranges", ranges, 190000, 220000}, {"peel", peel, 250000, 0},
        {"cost_by_beacon", by_beacon, 8000, 0}, {"labels", label, 8000, 0},
    };
    int passed = 0, failed = 0;
    for (size_t i = 0; i < RECORDS; i++)
        for (size_t k = 0; k < 10; k++)
            store[12 * i + k] = (uint8_t)(k < 4 || k > 7 ? (i * 37 + k * 101) % 251 : 0);
    for (size_t i = 0; i < sizeof calls / sizeof calls[0]; i++)
        for (p = 0; p < 4; p++) {
            size_t limit = p == 3 ? calls[i].rank : calls[i].sum, bytes;
            if (limit == 0)
                continue;
            eps = 40;
            bytes = taken(calls[i].call);
            if (bytes < limit) {
                passed++;
            } else {
                failed++;
                printf("stack: %s with p = %u takes %zu bytes, not less than %zu\n", calls[i].name, (unsigned)p, bytes, limit);
            }
        }
    printf("%d passed, %d failed\n", passed, failed);
    return failed != 0;
}
