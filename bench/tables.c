/* The reader of conversion tables beside the one before it, on the tables of a dossier: both in one library, built alike, in
 * one interleaved run.
 *
 *     tables DOSSIER           the times; the totals of PA and DA are the same in DOSSIER
 *     tables DOSSIER rows      all tables once by one reader, or by entries, for counting instructions
 */
#define _POSIX_C_SOURCE 200809L
#include <stdint.h>
#include <stdio.h>
#include <stdlib.h>
#include <string.h>
#include <time.h>

/* the carbon of CP and CD from a place; 0 where one is refused */
typedef uint64_t reader(const uint8_t *dossier, size_t dossier_len, size_t at, uint64_t total, const uint64_t *factors);
reader tables_by_rows, tables_by_entries;

enum { ROUNDS = 801, CALLS = 20, YEARS = 20 };

/* the records of a dossier and their bytes, mark included (docs/DOSSIER.md) */
static const struct { char mark[3]; size_t size; } records[] = {
    { "HD", 6 }, { "ST", 26 }, { "PA", 98 }, { "DA", 98 }, { "MP", 578 }, { "YR", 6 }, { "CP", 1154 }, { "CD", 1154 },
    { "PL", 2 }, { "FU", 11 }, { "VE", 15 }, { "NI", 14 }, { "LI", 11 }, { "CR", 21 }, { "EN", 2 },
};

static uint8_t dossier[1 << 17];
static size_t length, tables[YEARS], years; /* where the CP of each year stands */
static uint64_t total, factors[144];

static int stands(size_t at, const char *mark)
{
    return memcmp(dossier + at, mark, 2) == 0;
}

/* the bytes of the record at a place; the program ends where none stands there whole */
static size_t size_at(size_t at)
{
    for (size_t k = 0; k < sizeof records / sizeof *records; k++)
        if (at + 2 <= length && stands(at, records[k].mark) && at + records[k].size <= length)
            return records[k].size;
    fprintf(stderr, "no whole record at byte %zu\n", at);
    exit(2);
}

static uint64_t areas_at(size_t at)
{
    uint64_t sum = 0;
    for (size_t i = 0; i < 12; i++) {
        uint64_t area = 0;
        for (size_t k = 0; k < 8; k++)
            area = area << 8 | dossier[at + 2 + 8 * i + k];
        sum += area;
    }
    return sum;
}

/* the total of PA, and the place of each CP */
static void find_tables(void)
{
    for (size_t at = 0, size; at < length; at += size) {
        size = size_at(at);
        if (stands(at, "PA"))
            total = areas_at(at);
        if (stands(at, "DA") && areas_at(at) != total) {
            fprintf(stderr, "the totals of PA and DA differ\n");
            exit(2);
        }
        if (stands(at, "CP") && years < YEARS)
            tables[years++] = at;
    }
}

/* the carbon of all tables; 0 where one is refused */
static uint64_t weigh(reader *read)
{
    uint64_t sum = 0;
    for (size_t k = 0; k < years; k++) {
        uint64_t carbon = read(dossier, length, tables[k], total, factors);
        if (carbon == 0)
            return 0;
        sum += carbon;
    }
    return sum;
}

static double microseconds(reader *read)
{
    static uint64_t carbon;
    struct timespec a, b;
    clock_gettime(CLOCK_MONOTONIC, &a);
    for (int k = 0; k < CALLS; k++) {
        uint64_t sum = weigh(read);
        if (sum == 0 || (carbon && sum != carbon)) {
            fprintf(stderr, "a table is refused, or the readers differ\n");
            exit(1);
        }
        carbon = sum;
    }
    clock_gettime(CLOCK_MONOTONIC, &b);
    return ((double)(b.tv_sec - a.tv_sec) * 1e6 + (double)(b.tv_nsec - a.tv_nsec) / 1e3) / CALLS;
}

static int rising(const void *a, const void *b)
{
    double x = *(const double *)a, y = *(const double *)b;
    return (x > y) - (x < y);
}

static double median(double times[ROUNDS])
{
    qsort(times, ROUNDS, sizeof *times, rising);
    return times[ROUNDS / 2];
}

int main(int argc, char **argv)
{
    static double of_rows[ROUNDS], of_entries[ROUNDS];
    FILE *file = argc == 2 || argc == 3 ? fopen(argv[1], "rb") : NULL;
    if (!file) {
        fprintf(stderr, "usage: tables DOSSIER [rows | entries]\n");
        return 2;
    }
    length = fread(dossier, 1, sizeof dossier, file);
    fclose(file);
    find_tables();
    for (uint64_t k = 0; k < 144; k++)
        factors[k] = 340 * k; /* up to 48,620 */
    if (argc == 3)
        return weigh(strcmp(argv[2], "rows") ? tables_by_entries : tables_by_rows) == 0;
    for (int k = 0; k < ROUNDS; k++) {
        of_rows[k] = microseconds(tables_by_rows);
        of_entries[k] = microseconds(tables_by_entries);
    }
    double rows = median(of_rows), entries = median(of_entries);
    printf("the tables of %zu bytes: by rows %.2f us, by entries %.2f us, ratio %.2f\n", length, rows, entries, rows / entries);
    return 0;
}
