/* The line fitter, for C and everything that speaks C. Link the libvengutari that is installed with this header, or
 * target/staticlib/libcapi.a, which `tools/build capi` writes.
 *
 * Each call returns a code:
 *   0                  accepted
 *   1 to 18            refused, by the papers' number of the refusal; 7 (an x after the d-th is not 0) comes with 256 times the number of
 *                      that record added, records counting from 0
 *   255                a buffer has the wrong length; looked at before everything else
 * VENGUTARI_NUMBER takes the number out of a code, and VENGUTARI_RECORD the record.
 *
 * Results go into memory that the caller lends. A call that is not accepted leaves all of it as it is.
 *
 * A length counts elements, not bytes. No pointer is null, each points to as many elements as its length says, and what one argument
 * lends for writing no other argument reaches. Nothing is allocated or kept, so calls on different memory may run at the same time.
 * A search, for ranges too, a pass through windows or a run by the registers takes less than 190,000 bytes of stack, with p = 3 less than
 * 220,000, for several boards 5,000 more, and peeling less than 250,000; a cost or bound with p = 3 less than 45,000, every other call less
 * than 8,000. Where the C library is shared and bound lazily, what the loader takes at a first call of memset or the like comes on top,
 * some 3,200 bytes where it was measured.
 *
 * store    point records of 12 bytes, 1 to 4,096 of them; one whose y is -32,768 is a gap, a sample that the board didn't take: it adds 0
 *          to every cost and bound, and is a record as any other: it counts, and its x after the d-th are 0
 * n, d     lines (1 to 4) and x used (1 to 4), n * d at most 8
 * scale    S, 0 to 15: a parameter w stands for w / 2^S
 * p, eps   the loss (0, 1 or 2) and its threshold (0 to 16,777,215, at least 1 where p is 1 or 2); or p = 3, where eps is q, how many
 *          samples may be spoiled, from 0 to one less than the number of records, gaps counted: the cost is then the (q + 1)-th largest of
 *          the points' least |e| over the lines, a gap counting as 0, and the bound of a box the (q + 1)-th largest of the least sizes.
 *          The loss of a single e, labels, peeling and the cost beacon by beacon refuse p = 3 by 4
 * vector   8 numbers, line after line, d each; those after n * d are 0
 * corners  a box, 16 numbers: its low vector, then its high vector
 *
 * The records, by the offsets of their fields in bytes; every number of more than one byte is big-endian, its first byte the highest, and
 * i16 is signed, in two's complement:
 *   point, 12 bytes    0 x1 i16, 2 x2 i16, 4 x3 i16, 6 x4 i16, 8 y i16, 10 frame number u16
 *   job, 72 bytes      0 n u8, 1 d u8, 2 S u8, 3 p u8, 4 eps u32 (q where p is 3), 8 t u64, 16 split budget u32, 20 rows of the table u32,
 *                      24 low vector 8 x i16, 40 high vector 8 x i16, 56 start vector 8 x i16; a store follows it in the input of fit
 *   answer, 40 bytes   0 vector 8 x i16, 16 cost C u64, 24 bound L u64, 32 split count u32, 36 kind u8 (1 solved, 2 spent, 3 full),
 *                      37 n u8, 38 d u8, 39 S u8
 */
#ifndef VENGUTARI_H
#define VENGUTARI_H

#include <stddef.h>
#include <stdint.h>

#ifdef __cplusplus
extern "C" {
#endif

/* A buffer of the wrong length: no refusal of the paper. */
#define VENGUTARI_WRONG_LENGTH 255u

/* The number of a refusal, and where that is 7 the record's. */
#define VENGUTARI_NUMBER(code) ((code) % 256u)
#define VENGUTARI_RECORD(code) ((code) / 256u)

/* The bytes of a point record, of a job record and of an answer record, and the most records of a store. */
#define VENGUTARI_POINT_BYTES 12
#define VENGUTARI_JOB_BYTES 72
#define VENGUTARI_ANSWER_BYTES 40
#define VENGUTARI_MOST_RECORDS 4096

/* The y of a gap, its label, and that of a sample that lies within eps of more than one line. */
#define VENGUTARI_GAP_Y (-32768)
#define VENGUTARI_GAP_LABEL 6
#define VENGUTARI_UNDECIDED_LABEL 5

/* The records of a full beacon, and the most beacons that a store's records make. */
#define VENGUTARI_BEACON_RECORDS 19
#define VENGUTARI_MOST_BEACONS 216

/* The loss of a residual e. Refusal 4, also for p = 3. */
uint32_t vengutari_loss(uint8_t p, uint32_t eps, int64_t e, uint64_t *value);

/* The cost of a vector, with p = 3 the (q + 1)-th largest of the points' least |e|. Refusals 1 to 4, 6 and 7; 255 where vector_len is
 * not 8. */
uint32_t vengutari_cost(const uint8_t *store, size_t store_len, uint8_t n, uint8_t d, uint8_t scale, uint8_t p, uint32_t eps,
                        const int16_t *vector, size_t vector_len, uint64_t *value);

/* The cost of a vector beacon by beacon: sums[g] takes the cost of records 19 g to 19 g + 18, the last group taking what is left, and the
 * further entries are kept; *value is the total, which is the cost. Refusals 1 to 4 (4 also for p = 3), 6, 7, and 10 where sums has fewer
 * entries than there are groups; 255 where vector_len is not 8. */
uint32_t vengutari_cost_by_beacon(const uint8_t *store, size_t store_len, uint8_t n, uint8_t d, uint8_t scale, uint8_t p, uint32_t eps,
                                  const int16_t *vector, size_t vector_len, uint64_t *sums, size_t sums_len, uint64_t *value);

/* The bound of a box, with p = 3 the (q + 1)-th largest of the least sizes. Refusals 1 to 5 and 7; 255 where corners_len is not 16. */
uint32_t vengutari_bound(const uint8_t *store, size_t store_len, uint8_t n, uint8_t d, uint8_t scale, uint8_t p, uint32_t eps,
                         const int16_t *corners, size_t corners_len, uint64_t *value);

/* Splits one box: halves takes the left one in its first 16 numbers and the right one in the next 16, and keeps its rest.
 * Refusals 2 and 5; 255 where corners_len is not 16 or halves_len is below 32. */
uint32_t vengutari_split(uint8_t n, uint8_t d, const int16_t *corners, size_t corners_len, int16_t *halves, size_t halves_len);

/* One label for each point into the front of labels, whose rest is kept; *value is how many. A gap has 6; a sample within eps of more than
 * one line has 5, undecided; within eps of one line alone, that line, 1 to n; else 0. Refusals 1 to 4 (4 also for p = 3), 6, 7 and
 * 10; 255 where vector_len is not 8. */
uint32_t vengutari_labels(const uint8_t *store, size_t store_len, uint8_t n, uint8_t d, uint8_t scale, uint8_t p, uint32_t eps,
                          const int16_t *vector, size_t vector_len, uint8_t *labels, size_t labels_len, uint64_t *value);

/* Searches a box for the cheapest vector, with p = 3 too, splitting boxes at most budget times, until C - L is at most t; with t = 0 until
 * no box is open, where the vector is the first of all vectors of least cost, comparing coordinate 1 first. The rows of 16 numbers that
 * table has hold the open boxes, and the entries of bounds beside them their bounds. *value is the kind of the answer: 1 solved, 2 spent,
 * 3 full; with t = 0 a spent or full answer may have C = L. vector takes the best vector, and numbers takes its cost C, the lower bound L
 * for every vector of the box, the splits counted, the open boxes and the peak of their number. The first rows of table are then the open
 * boxes, and the first entries of bounds their bounds; those from there up to the peak may hold leftovers; everything behind keeps what it
 * held. Refusals 1 to 8, and 14 where bounds has fewer entries than table has rows; 255 where corners_len is not 16, start_len or
 * vector_len not 8, or numbers_len not 5. */
uint32_t vengutari_search(const uint8_t *store, size_t store_len, uint8_t n, uint8_t d, uint8_t scale, uint8_t p, uint32_t eps,
                          uint64_t t, uint32_t budget, const int16_t *corners, size_t corners_len, const int16_t *start, size_t start_len,
                          int16_t *table, size_t table_len, uint64_t *bounds, size_t bounds_len, int16_t *vector, size_t vector_len,
                          uint64_t *numbers, size_t numbers_len, uint64_t *value);

/* Searches every window of a store, as vengutari_search does: k records each, from record 0, h, 2 h and so on as long as they lie wholly in
 * the store. The first search starts at start, each later one at the vector of the one before, whatever its kind, and each has the whole
 * budget and the table. out takes an answer record of 40 bytes for each window, in order (vengutari_read_answer reads one), and keeps its
 * rest; *value is the number of windows. The first rows of table are then the last search's open boxes, and the first entries of bounds
 * their bounds; those from there up to the largest peak of all searches may hold leftovers; everything behind keeps what it held.
 * Refusals, all before the first search: 1 to 7 over the whole store (with p = 3, 4 where q is not below k), 17 where k or h is 0 or k is
 * more than the store's records, 8, 14 where bounds has fewer entries than table has rows, and 10 where out has fewer than 40 bytes for
 * each window; 255 where corners_len is not 16 or start_len not 8. */
uint32_t vengutari_windows(const uint8_t *store, size_t store_len, uint8_t n, uint8_t d, uint8_t scale, uint8_t p, uint32_t eps,
                           uint64_t t, uint32_t budget, const int16_t *corners, size_t corners_len, const int16_t *start, size_t start_len,
                           size_t k, size_t h, int16_t *table, size_t table_len, uint64_t *bounds, size_t bounds_len, uint8_t *out,
                           size_t out_len, uint64_t *value);

/* Searches for several boards within one split budget. jobs has count job records of 72 bytes, one behind the other, stores their stores,
 * one behind the other, and lengths the length of each store in bytes, so that a store begins at the sum of all lengths before it. All
 * jobs use the one table and the one list of bounds, one after the other; the rows that a job record carries are not looked at. In order,
 * each job gets the smaller of its own budget and the splits left divided by the jobs left, itself included, rounded down; a refused job
 * makes no splits. So the splits together are at most total, and each job gets at least the smaller of its own budget and total / count.
 * For job i, codes[i] takes what vengutari_search would return for it: 0, or 1 to 8 or 14 (7 with the record's number), also 1 where its
 * store reaches past the end of stores; budgets[i] takes the budget that it got; vectors[8 i] to vectors[8 i + 7] the best vector; and
 * numbers[6 i] to numbers[6 i + 5] the kind, C, L, the splits counted, the open boxes and the peak. Of a refused job the vector and the
 * numbers are 0, and all is 0 from count on. The first rows of table and entries of bounds are then those of the last job accepted, up to
 * the largest peak there may be leftovers, and everything behind keeps what it held; a refused job leaves both as it found them.
 * Refusal 18 for count outside 1 to 8, jobs_len below 72 * count or lengths_len below count; 255 where codes_len or budgets_len is not 8,
 * vectors_len not 64 or numbers_len not 48. */
uint32_t vengutari_boards(uint8_t count, uint32_t total, const uint8_t *jobs, size_t jobs_len, const uint8_t *stores, size_t stores_len,
                          const uint32_t *lengths, size_t lengths_len, int16_t *table, size_t table_len, uint64_t *bounds,
                          size_t bounds_len, uint32_t *codes, size_t codes_len, uint32_t *budgets, size_t budgets_len, int16_t *vectors,
                          size_t vectors_len, uint64_t *numbers, size_t numbers_len);

/* Finds the range of every coefficient: of each used coordinate the least and the greatest value among all vectors of the box that cost at
 * most ceiling, as single-precision numbers w / 2^S. Open boxes stand in the rows of table, the last one is always split, at most budget
 * times in all. *value is 1 finished, 2 spent, 3 full. cases takes for each of the 8 coordinates 0 for no range, 1 for one value and 2 for a
 * low and a high one; patterns the bits of the low and the high end of coordinate 1, then of 2 and so on, equal for one value and 0 for none.
 * A finished search with no range for a used coordinate says that no vector costs at most ceiling; a spent or full one and a coordinate after
 * n * d have none. numbers takes the splits counted, the open boxes and the peak of their number. The search is finished whenever budget is
 * at least V - 1, V being the number of vectors of the box, and table has at least V / 2 rows. The first rows of table are then the open
 * boxes; those from there up to the peak may hold leftovers; everything behind keeps what it held. start is checked and not used.
 * Refusals 1 to 8; 255 where corners_len is not 16, start_len not 8, patterns_len not 16, cases_len not 8 or numbers_len not 3. */
uint32_t vengutari_ranges(const uint8_t *store, size_t store_len, uint8_t n, uint8_t d, uint8_t scale, uint8_t p, uint32_t eps,
                          uint32_t budget, uint64_t ceiling, const int16_t *corners, size_t corners_len, const int16_t *start,
                          size_t start_len, int16_t *table, size_t table_len, uint32_t *patterns, size_t patterns_len, uint8_t *cases,
                          size_t cases_len, uint64_t *numbers, size_t numbers_len, uint64_t *value);

/* Peels one line after another, with n = 1 and p = 0: searches as vengutari_search does, removes the points that a solved round's line fits
 * (|e| at most eps), and searches again on those left, each time from the start vector and with the whole budget, table and bounds; gaps are
 * set aside before the first round. It stops when no point is left, after limit rounds (1 to 4), after a round whose line fits none of the
 * points left, and after one that isn't solved, which removes nothing. *value is the number of rounds run, 0 where there are gaps alone.
 * vectors takes 8 coordinates a round, numbers its kind, C, L, count, open boxes and peak; those of rounds not run are 0. The front of
 * labels takes a byte for each record: the round that removed it, 0, or 6 for a gap; its rest is kept. table and bounds are as the last
 * round leaves them, with leftovers up to the largest peak. Refusals 1, 2 (any n but 1), 3, 4 (any p but 0), 13 (limit), 5 to 8, 14, and 10
 * where labels has fewer elements than there are records, in this order; 255 where corners_len is not 16, start_len not 8, vectors_len not
 * 32 or numbers_len not 24. */
uint32_t vengutari_peel(const uint8_t *store, size_t store_len, uint8_t n, uint8_t d, uint8_t scale, uint8_t p, uint32_t eps, uint64_t t,
                        uint32_t budget, const int16_t *corners, size_t corners_len, const int16_t *start, size_t start_len, uint8_t limit,
                        int16_t *table, size_t table_len, uint64_t *bounds, size_t bounds_len, uint8_t *labels, size_t labels_len,
                        int16_t *vectors, size_t vectors_len, uint64_t *numbers, size_t numbers_len, uint64_t *value);

/* Copies a beacon into the store from byte mark on; *value is the new mark. The store may have any length. Refusals 1, 10 and 11. */
uint32_t vengutari_take_in(uint8_t *store, size_t store_len, size_t mark, const uint8_t *beacon, size_t beacon_len, uint64_t *value);

/* Makes one store of two, in each of which the frame numbers rise strictly: the records found in either, by rising frame numbers, into the
 * front of out, whose rest is kept; *value is how many bytes. Either store may be empty (of length 0); a record that both have is taken once.
 * Refusals 1, 15 (the frames of either do not rise), 16 (unequal records of one frame), 1 (over 4,096 records together) and 10, in this order. */
uint32_t vengutari_merge(const uint8_t *first, size_t first_len, const uint8_t *second, size_t second_len, uint8_t *out, size_t out_len,
                         uint64_t *value);

/* Reads the job record in the first 72 bytes; what follows them is no part of it. numbers takes n, d, S, p, eps (q where p is 3), t, the split
 * budget and the rows r; corners takes the box and start the start vector. Any 72 bytes are a job; a search refuses what is out of range.
 * Refusal 1 for fewer than 72 bytes; 255 where numbers_len is not 8, corners_len not 16 or start_len not 8. */
uint32_t vengutari_read_job(const uint8_t *bytes, size_t bytes_len, uint64_t *numbers, size_t numbers_len, int16_t *corners,
                            size_t corners_len, int16_t *start, size_t start_len);

/* Writes a job record into the first 72 bytes, and keeps the rest. Refusal 10 for fewer than 72 bytes; 255 where corners_len is not 16 or
 * start_len not 8. */
uint32_t vengutari_write_job(uint8_t n, uint8_t d, uint8_t scale, uint8_t p, uint32_t eps, uint64_t t, uint32_t budget, uint32_t rows,
                             const int16_t *corners, size_t corners_len, const int16_t *start, size_t start_len, uint8_t *bytes,
                             size_t bytes_len);

/* Reads an answer record of 40 bytes: vector takes its vector, and numbers takes C, L, the count, the kind, n, d and S.
 * Refusal 9; 255 where vector_len is not 8 or numbers_len not 7. */
uint32_t vengutari_read_answer(const uint8_t *bytes, size_t bytes_len, int16_t *vector, size_t vector_len, uint64_t *numbers,
                               size_t numbers_len);

/* Writes an answer record into the first 40 bytes, and keeps the rest. cost is C, bound is L, kind is 1 solved, 2 spent or 3 full.
 * Refusals 9 and 10; 255 where vector_len is not 8. */
uint32_t vengutari_write_answer(const int16_t *vector, size_t vector_len, uint64_t cost, uint64_t bound, uint32_t count, uint8_t kind,
                                uint8_t n, uint8_t d, uint8_t scale, uint8_t *bytes, size_t bytes_len);

/* Writes one line: patterns takes the bits of the four single-precision numbers w / 2^S, +0 after the d-th. The coordinates after the d-th
 * are 0. Refusals 2 (d alone), 3 and 6; 255 where coordinates_len or patterns_len is not 4. */
uint32_t vengutari_write_line(uint8_t d, uint8_t scale, const int16_t *coordinates, size_t coordinates_len, uint32_t *patterns,
                              size_t patterns_len);

/* Reads one line back: coordinates takes the four w. Refusals 2 (d alone), 3, and 12 for a pattern that no w has or, after the d-th, any
 * but +0; 255 where coordinates_len or patterns_len is not 4. */
uint32_t vengutari_read_line(uint8_t d, uint8_t scale, const uint32_t *patterns, size_t patterns_len, int16_t *coordinates,
                             size_t coordinates_len);

/* The fitter on the data bus: 136 register bytes, which the caller keeps and touches by these three calls alone.
 *   0          the command: 2 runs a search of the job record, 3 clears the flags and the interrupt, others do nothing; reads 0
 *   1          flags: bit 0 done, bit 1 refused, bit 2 interrupt pending
 *   2          bit 0 enables the interrupt; other bits read 0
 *   3          the last run's refusal number, 0 if it was done
 *   8 to 47    the last run's answer record, zeros after a refusal
 *   64 to 135  the job record
 * Only 0, 2 and 64 to 135 take writes; everything else reads 0. Each call returns 0, or 255 where registers_len is not 136: a refused run
 * is told by the registers. */
#define VENGUTARI_REGISTERS 136
#define VENGUTARI_COMMAND_RUN 2
#define VENGUTARI_COMMAND_CLEAR 3
#define VENGUTARI_FLAG_DONE 1
#define VENGUTARI_FLAG_REFUSED 2
#define VENGUTARI_FLAG_PENDING 4

/* All bytes are 0 after reset. */
uint32_t vengutari_reset(uint8_t *registers, size_t registers_len);

/* *value is what a read of any offset gives, whatever the bytes hold. */
uint32_t vengutari_read_register(const uint8_t *registers, size_t registers_len, size_t offset, uint64_t *value);

/* Writes a byte to any offset. A run searches the store in table, whose rows must be the job's r, or it is refused by 8, with bounds beside
 * it, as vengutari_search does: refusals 1 to 8 and 14, in byte 3. An answer that is spent or full is done too. Any other write leaves
 * table and bounds as they are. */
uint32_t vengutari_write_register(uint8_t *registers, size_t registers_len, size_t offset, uint8_t value, const uint8_t *store,
                                  size_t store_len, int16_t *table, size_t table_len, uint64_t *bounds, size_t bounds_len);

/* Writes a point record into 12 bytes. x has four numbers, those after the d-th 0; a y of VENGUTARI_GAP_Y makes it a gap. */
static inline void vengutari_put_point(uint8_t *record, const int16_t *x, int16_t y, uint16_t frame)
{
    size_t k;
    for (k = 0; k < 6; k++) {
        const uint16_t field = k < 4 ? (uint16_t)x[k] : k == 4 ? (uint16_t)y : frame;
        record[2 * k] = (uint8_t)(field >> 8);
        record[2 * k + 1] = (uint8_t)(field & 255u);
    }
}

/* What an answer record says. */
struct vengutari_answer {
    int16_t vector[8];
    uint64_t cost, bound;
    uint32_t count;
    uint8_t kind, n, d, scale;
};

/* Reads 40 bytes as they stand; nothing is checked, as vengutari_read_answer does. */
static inline struct vengutari_answer vengutari_get_answer(const uint8_t *record)
{
    struct vengutari_answer answer;
    size_t k;
    answer.cost = answer.bound = 0;
    answer.count = 0;
    for (k = 0; k < 8; k++) {
        const int32_t field = (int32_t)record[2 * k] * 256 + (int32_t)record[2 * k + 1];
        answer.vector[k] = (int16_t)(field < 32768 ? field : field - 65536);
        answer.cost = answer.cost * 256u + record[16 + k];
        answer.bound = answer.bound * 256u + record[24 + k];
    }
    for (k = 0; k < 4; k++)
        answer.count = answer.count * 256u + record[32 + k];
    answer.kind = record[36];
    answer.n = record[37];
    answer.d = record[38];
    answer.scale = record[39];
    return answer;
}

/* The version of this header and its library. The shared library's name ends in the number that goes up where a program that was linked
 * before would no longer run: libvengutari.so.0. */
#define VENGUTARI_VERSION "0.1.0"

static inline const char *vengutari_version(void)
{
    return VENGUTARI_VERSION;
}

/* What a code says, in words; the record's number that a code may carry in its upper bytes is left out. */
static inline const char *vengutari_message(uint32_t code)
{
    switch (code & 255u) {
    case 0: return "accepted";
    case 1: return "length: a store or beacon is empty, too long or not whole records, or a job record is not whole";
    case 2: return "shape: lines, dimensions or their product out of range";
    case 3: return "scale: over 15";
    case 4: return "loss: loss, threshold or number of spoiled samples out of range";
    case 5: return "box: low over high, an unused coordinate not 0, or one vector where a box is to be split";
    case 6: return "start: outside the box, or an unused coordinate not 0";
    case 7: return "stray: an x after the last dimension is not 0";
    case 8: return "table: no row, or more rows than allowed";
    case 9: return "answer: a field of the record is out of range";
    case 10: return "short: the output is too small";
    case 11: return "beacon: over 236 bytes";
    case 12: return "off grid: a single-precision number that no coefficient has";
    case 13: return "rounds: a limit outside 1 to 4";
    case 14: return "bounds: fewer entries than rows";
    case 15: return "order: frame numbers that do not rise";
    case 16: return "clash: unequal records of one frame";
    case 17: return "window: a length or hop of 0, or a window longer than the store";
    case 18: return "jobs: not 1 to 8 jobs, or fewer job records or lengths than jobs";
    case 255: return "a buffer has the wrong length";
    default: return "no code of this library";
    }
}

#ifdef __cplusplus
}
#endif

#endif
