/* A host: reckons the dossier file it is given, by the plan file after it if there is one, and prints its figures as CSV
 * for a spreadsheet, after them the tonnes issued at each period end that it is given. It ends with 1 where dossier, plan
 * or list is refused, with 2 where an argument or a file can't be read or the figures can't be written. */
#include "kh_am004.h"
#include <stdio.h>
#include <string.h>

/* Room for more period ends than are accepted, so that the reckoner refuses them. */
enum { MOST_LISTED = 64 };

struct list { uint16_t ends[MOST_LISTED]; size_t count; };

static int64_t number(const uint8_t *report, size_t offset)
{
    uint64_t bits = 0;
    for (size_t k = 0; k < 8; k++)
        bits = bits << 8 | report[offset + k];
    return (int64_t)bits;
}

static const struct { const char *title; size_t at; } columns[] = {
    { "reference", KH_AM004_AT_REFERENCE },           { "project", KH_AM004_AT_PROJECT },
    { "activity", KH_AM004_AT_ACTIVITY },             { "belt", KH_AM004_AT_BELT },
    { "belt reference", KH_AM004_AT_BELT_REFERENCE }, { "displaced", KH_AM004_AT_DISPLACED },
    { "reduction", KH_AM004_AT_REDUCTION },           { "credited", KH_AM004_AT_CREDITED },
};

static void print_titles(void)
{
    printf("year");
    for (size_t k = 0; k < sizeof columns / sizeof *columns; k++)
        printf(",%s", columns[k].title);
    printf("\n");
}

static void print_year(int year, const uint8_t *figures)
{
    printf("%d", year);
    for (size_t k = 0; k < sizeof columns / sizeof *columns; k++)
        printf(",%lld", (long long)number(figures, columns[k].at));
    printf("\n");
}

static void print_report(int first, size_t years, const struct list *periods, const uint8_t *report)
{
    print_titles();
    for (size_t y = 0; y < years; y++)
        print_year(first + (int)y, report + KH_AM004_AT_YEAR(y));
    printf("total,%lld\n", (long long)number(report, KH_AM004_AT_TOTAL(years)));
    printf("tonnes,%lld\n", (long long)number(report, KH_AM004_AT_TONNES(years)));
    printf("balance,%lld\n", (long long)number(report, KH_AM004_AT_BALANCE(years)));
    printf("belt balance,%lld\n", (long long)number(report, KH_AM004_AT_BELT_BALANCE(years)));
    for (size_t k = 0; k < periods->count; k++)
        printf("issued,%d,%lld\n", periods->ends[k], (long long)number(report, KH_AM004_AT_ISSUED(years, k)));
}

/* A number up to 65535, and the place after it; -1 where none stands there. */
static long read_year(const char **text)
{
    const char *s = *text;
    long year = 0;
    for (; *s >= '0' && *s <= '9' && year <= 65535; s++)
        year = 10 * year + (*s - '0');
    int found = s != *text && year <= 65535;
    *text = s;
    return found ? year : -1;
}

/* The period ends with commas between them; -1 where they are something else or too many. No text is no list. */
static int read_list(const char *text, struct list *periods)
{
    periods->count = 0;
    if (*text == '\0')
        return 0;
    do {
        long year = periods->count < MOST_LISTED ? read_year(&text) : -1;
        if (year < 0)
            return -1;
        periods->ends[periods->count++] = (uint16_t)year;
    } while (*text++ == ',');
    return text[-1] == '\0' ? 0 : -1;
}

/* These first bytes of a file settle the answer for all of it: the longest dossier has a few less, the longest plan far
 * less. */
enum { FIRST_BYTES = 65536 };

/* The first bytes of a file; -1, and a line about it, where it can't be read. */
static long read_file(const char *path, uint8_t *bytes)
{
    FILE *file = fopen(path, "rb");
    size_t length = file ? fread(bytes, 1, FIRST_BYTES, file) : 0;
    int failed = !file || ferror(file);
    if (failed)
        perror(path);
    if (file)
        fclose(file);
    return failed ? -1 : (long)length;
}

static int reckon_files(const char *dossier_path, const char *plan_path, const struct list *periods)
{
    static uint8_t dossier[FIRST_BYTES], plan[FIRST_BYTES], report[KH_AM004_LONGEST_PERIODS];
    long length = read_file(dossier_path, dossier), plan_length = plan_path ? read_file(plan_path, plan) : 0;
    if (length < 0 || plan_length < 0)
        return 2;
    uint32_t answer = kh_am004_reckon_periods(dossier, (size_t)length, plan, (size_t)plan_length, periods->ends, periods->count,
                                              report, sizeof report);
    if (answer != KH_AM004_ACCEPTED) {
        fprintf(stderr, "refused %u: %s\n", (unsigned)answer, kh_am004_text(answer));
        return 1;
    }
    print_report(dossier[3] << 8 | dossier[4], dossier[5], periods, report);
    if (fflush(stdout)) {
        perror("standard output");
        return 2;
    }
    return 0;
}

int main(int argc, char **argv)
{
    struct list periods = { .count = 0 };
    int listed = argc > 1 && strcmp(argv[1], "--periods") == 0, files = argc - 1 - 2 * listed;
    char **paths = argv + 1 + 2 * listed;
    if ((files != 1 && files != 2) || (listed && read_list(argv[2], &periods))) {
        fprintf(stderr, "usage: host [--periods YEAR,YEAR,..] DOSSIER [PLAN]\n");
        return 2;
    }
    return reckon_files(paths[0], files == 2 ? paths[1] : NULL, &periods);
}
