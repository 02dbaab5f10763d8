/* Tests the header: each figure by its name, each refusal by its name, the lengths, null where a length is 0, plans, and
 * lists of period ends.
 *
 *     header FIGURES.dossier FIGURES.txt CASE-A.dossier     made by tests/independent/figures.py, and case A
 *     header numbers                                        prints each number with its text
 */
#include "kh_am004.h"
#include <stdio.h>
#include <stdlib.h>
#include <string.h>

static const struct { const char *name; size_t at; } figures[] = {
    { "reference", KH_AM004_AT_REFERENCE },           { "project", KH_AM004_AT_PROJECT },
    { "activity", KH_AM004_AT_ACTIVITY },             { "belt", KH_AM004_AT_BELT },
    { "belt_reference", KH_AM004_AT_BELT_REFERENCE }, { "displaced", KH_AM004_AT_DISPLACED },
    { "reduction", KH_AM004_AT_REDUCTION },           { "credited", KH_AM004_AT_CREDITED },
};

static _Noreturn void fail(const char *what, long long found, long long due)
{
    printf("the header: %s is %lld where %lld is due\n", what, found, due);
    exit(1);
}

static void expect(const char *what, long long found, long long due)
{
    if (found != due)
        fail(what, found, due);
}

static size_t load(const char *path, uint8_t *bytes, size_t most)
{
    FILE *file = fopen(path, "rb");
    if (!file) {
        perror(path);
        exit(1);
    }
    size_t length = fread(bytes, 1, most, file);
    fclose(file);
    return length;
}

static int64_t number(const uint8_t *report, size_t at)
{
    uint64_t bits = 0;
    for (size_t k = 0; k < 8; k++)
        bits = bits << 8 | report[at + k];
    return (int64_t)bits;
}

/* Where the header has a figure of year y, or one of the four after the last of y years. */
static size_t place(const char *name, size_t y)
{
    for (size_t k = 0; k < sizeof figures / sizeof *figures; k++)
        if (strcmp(name, figures[k].name) == 0)
            return KH_AM004_AT_YEAR(y) + figures[k].at;
    if (strcmp(name, "total") == 0)
        return KH_AM004_AT_TOTAL(y);
    if (strcmp(name, "tonnes") == 0)
        return KH_AM004_AT_TONNES(y);
    if (strcmp(name, "balance") == 0)
        return KH_AM004_AT_BALANCE(y);
    if (strcmp(name, "belt_balance") == 0)
        return KH_AM004_AT_BELT_BALANCE(y);
    printf("the header has no %s\n", name);
    exit(1);
}

/* A call that takes less has the same answer and leaves the same bytes. */
static void expect_same(const char *call, uint32_t answer, uint32_t due, const uint8_t *other, const uint8_t *report, size_t room)
{
    expect(call, answer, due);
    for (size_t k = 0; k < room; k++)
        expect(call, other[k], report[k]);
}

/* The answer by the whole call with no list, and by those that take none. */
static uint32_t reckon(const uint8_t *dossier, size_t length, const uint8_t *plan, size_t plan_length, uint8_t *report, size_t room)
{
    static uint8_t others[2][KH_AM004_LONGEST_REPORT];
    uint8_t *other = room ? others[0] : NULL, *third = room ? others[1] : NULL;
    for (size_t k = 0; k < room; k++)
        other[k] = third[k] = report[k];
    uint32_t answer = kh_am004_reckon_periods(dossier, length, plan, plan_length, NULL, 0, report, room);
    expect_same("kh_am004_reckon_plan", kh_am004_reckon_plan(dossier, length, plan, plan_length, other, room), answer, other, report, room);
    if (plan_length == 0)
        expect_same("kh_am004_reckon", kh_am004_reckon(dossier, length, third, room), answer, third, report, room);
    return answer;
}

static void test_figures(const char *path, const uint8_t *report)
{
    char name[32];
    unsigned y;
    long long due;
    int lines = 0;
    FILE *file = fopen(path, "r");
    while (file && fscanf(file, "%31s %u %lld", name, &y, &due) == 3) {
        expect(name, number(report, place(name, y)), due);
        lines++;
    }
    expect("the number of figures", lines, 8 * KH_AM004_MOST_YEARS + 4);
    fclose(file);
}

/* The longest dossier, whose report just fits. */
static void test_longest(const uint8_t *dossier, size_t length, const char *path)
{
    static uint8_t report[KH_AM004_LONGEST_REPORT];
    expect("the longest dossier", KH_AM004_LONGEST_DOSSIER, (long long)length);
    expect("the longest report", KH_AM004_LONGEST_REPORT, KH_AM004_REPORT_BYTES(KH_AM004_MOST_YEARS));
    expect("a report one byte short", reckon(dossier, length, NULL, 0, report, sizeof report - 1), KH_AM004_REFUSED_BUFFER);
    expect("the longest dossier's answer", reckon(dossier, length, NULL, 0, report, sizeof report), KH_AM004_ACCEPTED);
    test_figures(path, report);
}

/* A refusal leaves the buffer as it was. */
static void refused_by(const char *fault, uint32_t due, const uint8_t *dossier, size_t length, const uint8_t *plan, size_t plan_length,
                       size_t room)
{
    uint8_t report[KH_AM004_REPORT_BYTES(1)], old[sizeof report];
    memset(report, 165, sizeof report);
    memcpy(old, report, sizeof report);
    expect(fault, reckon(dossier, length, plan, plan_length, report, room), due);
    expect("a buffer after a refusal", memcmp(report, old, sizeof report), 0);
}

static void refused(const char *fault, uint32_t due, const uint8_t *dossier, size_t length, size_t room)
{
    refused_by(fault, due, dossier, length, NULL, 0, room);
}

/* Case A with a byte replaced. */
static void spoilt(const char *fault, uint32_t due, const uint8_t *sound, size_t length, size_t at, uint8_t byte)
{
    static uint8_t dossier[KH_AM004_LONGEST_DOSSIER];
    memcpy(dossier, sound, length);
    dossier[at] = byte;
    refused(fault, due, dossier, length, KH_AM004_REPORT_BYTES(1));
}

static const uint8_t residue[21] = { 'C', 'R', 1 };

/* So many records from a place on, no two of them alike in their last byte; the place after them. */
static size_t put_records(uint8_t *bytes, size_t n, int records, const uint8_t *record, size_t record_length)
{
    for (int k = 0; k < records; k++, n += record_length) {
        memcpy(bytes + n, record, record_length);
        bytes[n + record_length - 1] -= (uint8_t)k;
    }
    return n;
}

/* By case A, and by the longest dossier for the records that case A lacks. */
static void test_refusals(const uint8_t *a, size_t length, const uint8_t *longest, size_t longest_length)
{
    static uint8_t more[8192];
    size_t room = KH_AM004_REPORT_BYTES(1), fuel = length - 13;
    refused("EN cut", KH_AM004_REFUSED_BYTES_END, a, length - 1, room);
    memcpy(more, a, length);
    refused("a byte after EN", KH_AM004_REFUSED_MARK, more, length + 1, room);
    spoilt("21 years", KH_AM004_REFUSED_HEAD, a, length, 5, 21);
    spoilt("an area of 2^63", KH_AM004_REFUSED_AREAS, a, length, 8, 128);
    spoilt("a stock of NF", KH_AM004_REFUSED_STOCKS, longest, longest_length, 31, 1);
    spoilt("a probability one more", KH_AM004_REFUSED_MATRIX, longest, longest_length, 233, (uint8_t)(longest[233] + 1));
    spoilt("367 days", KH_AM004_REFUSED_YEAR, a, length, 207, 367 & 255);
    spoilt("a conversion one more", KH_AM004_REFUSED_CONVERSIONS, a, length, 217, (uint8_t)(a[217] + 1));
    spoilt("fuel of kind 4", KH_AM004_REFUSED_ACTIVITY, a, length, fuel + 2, 4);
    memcpy(more + fuel + 11, a + fuel, 13);
    refused("two equal records", KH_AM004_REFUSED_REPEATED, more, length + 11, room);
    for (size_t k = 1; k <= 60; k++) {
        memcpy(more + fuel + 11 * k, a + fuel, 13);
        more[fuel + 11 * k + 10] -= (uint8_t)k;
    }
    refused("61 records", KH_AM004_REFUSED_RECORDS, more, length + 11 * 60, room);
    size_t n = put_records(more, fuel, 3, residue, sizeof residue);
    memcpy(more + n, "EN", 2);
    refused("a third CR", KH_AM004_REFUSED_RECORDS, more, n + 2, room);
    more[fuel + 2] = 3;
    refused("CR of crop 3", KH_AM004_REFUSED_ACTIVITY, more, n + 2, room);
    refused("a report one byte short", KH_AM004_REFUSED_BUFFER, a, length, room - 1);
}

static void test_null(const uint8_t *a, size_t length)
{
    uint8_t report[KH_AM004_REPORT_BYTES(1)] = { 0 };
    expect("no dossier", reckon(NULL, 0, NULL, 0, report, sizeof report), KH_AM004_REFUSED_BYTES_END);
    expect("no buffer", reckon(a, length, NULL, 0, NULL, 0), KH_AM004_REFUSED_BUFFER);
    expect("neither", reckon(NULL, 0, NULL, 0, NULL, 0), KH_AM004_REFUSED_BYTES_END);
    expect("no buffer for a cut dossier", reckon(a, length - 1, NULL, 0, NULL, 0), KH_AM004_REFUSED_BYTES_END);
    expect("no dossier beside a plan", reckon(NULL, 0, (const uint8_t *)"EN", 2, report, sizeof report), KH_AM004_REFUSED_BYTES_END);
    expect("no dossier beside a plan cut", reckon(NULL, 0, (const uint8_t *)"E", 1, NULL, 0), KH_AM004_REFUSED_PLAN);
}

/* A plan of so many years from one on, with so many records in each, and so many CR after them. */
static size_t make_plan(uint8_t *plan, int years, int first, int records, const uint8_t *record, size_t record_length, int residues)
{
    size_t n = 0;
    for (int y = first; y < first + years; y++) {
        const uint8_t head[4] = { 'P', 'Y', (uint8_t)(y >> 8), (uint8_t)y };
        memcpy(plan + n, head, 4);
        n = put_records(plan, n + 4, records, record, record_length);
        n = put_records(plan, n, residues, residue, sizeof residue);
    }
    memcpy(plan + n, "EN", 2);
    return n + 2;
}

/* Case A with its record in a plan, which gives the same report; and the plan or the year refused. */
static void test_plan(const uint8_t *a, size_t length)
{
    static uint8_t year[8192], plan[KH_AM004_LONGEST_PLAN + 16];
    uint8_t own[KH_AM004_REPORT_BYTES(1)] = { 0 }, planned[sizeof own] = { 0 };
    size_t room = sizeof own, fuel = length - 13, n = fuel + 4;
    memcpy(year, a, fuel);
    memcpy(year + fuel, "PLEN", 4);

    size_t m = make_plan(plan, 3, 2019, 1, a + fuel, 11, 0);
    expect("case A", reckon(a, length, NULL, 0, own, room), KH_AM004_ACCEPTED);
    expect("case A by a plan", reckon(year, n, plan, m, planned, room), KH_AM004_ACCEPTED);
    expect("the report by a plan", memcmp(own, planned, room), 0);
    expect("case A beside a plan", reckon(a, length, plan, m, planned, room), KH_AM004_ACCEPTED);
    expect("the report beside a plan", memcmp(own, planned, room), 0);
    refused_by("a plan cut", KH_AM004_REFUSED_PLAN, year, n, plan, m - 1, room);
    refused_by("a plan cut, beside case A", KH_AM004_REFUSED_PLAN, a, length, plan, m - 1, room);
    refused_by("a dossier for a plan", KH_AM004_REFUSED_PLAN, a, length, a, length, 0);
    refused_by("a report one byte short", KH_AM004_REFUSED_BUFFER, year, n, plan, m, room - 1);

    refused("PL without a plan", KH_AM004_REFUSED_PLANNED, year, n, room);
    refused_by("PL and a plan without years", KH_AM004_REFUSED_PLANNED, year, n, (const uint8_t *)"EN", 2, room);
    m = make_plan(plan, 3, 2021, 1, a + fuel, 11, 0);
    refused_by("PL and a plan of other years", KH_AM004_REFUSED_PLANNED, year, n, plan, m, room);
    m = make_plan(plan, 1, 2020, 55, a + fuel, 11, 0);
    expect("55 times the fuel, or little less", reckon(year, n, plan, m, planned, room), KH_AM004_ACCEPTED);
    m = make_plan(plan, 1, 2020, 56, a + fuel, 11, 0);
    refused_by("56 times the fuel, or little less", KH_AM004_REFUSED_PLANNED, year, n, plan, m, 0);
    m = make_plan(plan, 1, 2020, 2, a + fuel, 11, 0);
    memcpy(plan + 15, plan + 4, 11);
    refused_by("a plan with two equal records", KH_AM004_REFUSED_REPEATED, year, n, plan, m, room);
    refused_by("a plan with two equal records, beside case A", KH_AM004_REFUSED_REPEATED, a, length, plan, m, 0);
}

/* The longest plan, and what passes it. */
static void test_longest_plan(const uint8_t *a, size_t length)
{
    static const uint8_t vehicles[15] = { 'V', 'E', 1 };
    static uint8_t plan[KH_AM004_LONGEST_PLAN + 1024];
    uint8_t report[KH_AM004_REPORT_BYTES(1)] = { 0 };
    size_t m = make_plan(plan, KH_AM004_MOST_YEARS, 2020, 58, vehicles, sizeof vehicles, 2);
    expect("the longest plan", KH_AM004_LONGEST_PLAN, (long long)m);
    expect("the longest plan's answer", reckon(a, length, plan, m, report, sizeof report), KH_AM004_ACCEPTED);
    refused_by("a byte after the plan's EN", KH_AM004_REFUSED_PLAN, a, length, plan, m + 1, sizeof report);
    m = make_plan(plan, KH_AM004_MOST_YEARS + 1, 2020, 0, vehicles, sizeof vehicles, 0);
    refused_by("a plan of 21 years", KH_AM004_REFUSED_PLAN, a, length, plan, m, sizeof report);
    m = make_plan(plan, KH_AM004_MOST_YEARS, 2020, 59, vehicles, sizeof vehicles, 2);
    refused_by("a plan of 61 records a year", KH_AM004_REFUSED_PLAN, a, length, plan, m, sizeof report);
    m = make_plan(plan, KH_AM004_MOST_YEARS, 2020, 57, vehicles, sizeof vehicles, 3);
    refused_by("a plan of three CR a year", KH_AM004_REFUSED_PLAN, a, length, plan, m, sizeof report);
}

static int first_year(const uint8_t *dossier) { return dossier[3] << 8 | dossier[4]; }

/* Every year from one to another; their count. */
static size_t make_list(uint16_t *ends, int first, int last)
{
    for (int year = first; year <= last; year++)
        ends[year - first] = (uint16_t)year;
    return (size_t)(last - first + 1);
}

static void test_periods_names(void)
{
    static const char text[] = "the list of period ends: not rising, outside the dossier's years, or without its last year";
    expect("the longest report with a list", KH_AM004_LONGEST_PERIODS,
           KH_AM004_PERIODS_BYTES(KH_AM004_MOST_YEARS, KH_AM004_MOST_PERIODS));
    expect("a report with no listed end", KH_AM004_PERIODS_BYTES(7, 0), KH_AM004_REPORT_BYTES(7));
    expect("the first end's place", KH_AM004_AT_ISSUED(7, 0), KH_AM004_AT_BELT_BALANCE(7) + 8);
    expect("the place after three ends", KH_AM004_AT_ISSUED(7, 2) + 8, KH_AM004_PERIODS_BYTES(7, 3));
    expect("the number of a list refused", KH_AM004_REFUSED_PERIODS, 15);
    expect("its text", strcmp(kh_am004_text(KH_AM004_REFUSED_PERIODS), text), 0);
}

/* What an owner can rely on after each end. */
static void test_relied_on(const uint8_t *dossier, const uint16_t *ends, size_t count, const uint8_t *report)
{
    int64_t running = 0, greatest = 0, issued = 0;
    for (size_t k = 0, y = 0; k < count; k++) {
        for (; first_year(dossier) + (int)y <= ends[k]; y++)
            running += number(report, KH_AM004_AT_YEAR(y) + KH_AM004_AT_CREDITED);
        greatest = running / 1000000 > greatest ? running / 1000000 : greatest;
        issued += number(report, KH_AM004_AT_ISSUED(dossier[5], k));
        expect("all tonnes issued up to an end", issued, greatest);
    }
}

/* A list changes no byte of what stands before its tonnes, and none after them. */
static void test_issued(const uint8_t *dossier, size_t length, const uint16_t *ends, size_t count)
{
    static uint8_t report[KH_AM004_LONGEST_PERIODS + 1], without[KH_AM004_LONGEST_REPORT];
    size_t years = dossier[5], bytes = KH_AM004_PERIODS_BYTES(years, count);
    memset(report, 165, sizeof report);
    expect("a report one byte short", kh_am004_reckon_periods(dossier, length, NULL, 0, ends, count, report, bytes - 1),
           KH_AM004_REFUSED_BUFFER);
    for (size_t k = 0; k < sizeof report; k++)
        expect("a byte after a refusal", report[k], 165);
    expect("a list's answer", kh_am004_reckon_periods(dossier, length, NULL, 0, ends, count, report, bytes), KH_AM004_ACCEPTED);
    expect("the answer without a list", reckon(dossier, length, NULL, 0, without, sizeof without), KH_AM004_ACCEPTED);
    expect("the report before the tonnes", memcmp(report, without, KH_AM004_REPORT_BYTES(years)), 0);
    for (size_t k = bytes; k < sizeof report; k++)
        expect("a byte after the tonnes", report[k], 165);
    test_relied_on(dossier, ends, count, report);
    if (count == 1)
        expect("the tonnes of one end", number(report, KH_AM004_AT_ISSUED(years, 0)), number(report, KH_AM004_AT_TONNES(years)));
}

/* A list refused leaves the buffer as it was, however long that is; a fault of dossier or plan comes first. */
static void refused_list(const char *fault, const uint8_t *a, size_t length, const uint16_t *ends, size_t count)
{
    uint8_t report[KH_AM004_LONGEST_PERIODS], old[sizeof report];
    memset(report, 165, sizeof report);
    memcpy(old, report, sizeof report);
    expect(fault, kh_am004_reckon_periods(a, length, NULL, 0, ends, count, report, sizeof report), KH_AM004_REFUSED_PERIODS);
    expect(fault, kh_am004_reckon_periods(a, length, NULL, 0, ends, count, NULL, 0), KH_AM004_REFUSED_PERIODS);
    expect(fault, kh_am004_reckon_periods(a, length - 1, NULL, 0, ends, count, report, sizeof report), KH_AM004_REFUSED_BYTES_END);
    expect(fault, kh_am004_reckon_periods(a, length, a, length, ends, count, report, sizeof report), KH_AM004_REFUSED_PLAN);
    expect("a buffer after a list refused", memcmp(report, old, sizeof report), 0);
}

/* By case A, whose year is 2020, and by the longest dossier. */
static void test_periods(const uint8_t *a, size_t length, const uint8_t *longest, size_t longest_length)
{
    static const uint16_t around[3] = { 2019, 2020, 2021 }, twice[2] = { 2020, 2020 };
    uint16_t ends[KH_AM004_MOST_PERIODS + 1];
    int first = first_year(longest), last = first + KH_AM004_MOST_YEARS - 1;
    test_periods_names();
    test_issued(a, length, around + 1, 1);
    test_issued(longest, longest_length, ends, make_list(ends, last, last));
    test_issued(longest, longest_length, ends, make_list(ends, first, last));
    refused_list("a year before the first", a, length, around, 2);
    refused_list("a year after the last", a, length, around + 1, 2);
    refused_list("a year twice", a, length, twice, 2);
    refused_list("the last year missing", longest, longest_length, ends, make_list(ends, first, last - 1));
    refused_list("21 years", longest, longest_length, ends, make_list(ends, first, last + 1));
    ends[0] = ends[2];
    refused_list("a year that falls", longest, longest_length, ends, KH_AM004_MOST_PERIODS);
}

static void print_numbers(void)
{
    for (uint32_t n = KH_AM004_ACCEPTED; strcmp(kh_am004_text(n), "unknown number"); n++)
        printf("%u %s\n", (unsigned)n, kh_am004_text(n));
    printf("version %d.%d\n", KH_AM004_VERSION_MAJOR, KH_AM004_VERSION_MINOR);
}

int main(int argc, char **argv)
{
    static uint8_t longest[70000], a[8192];
    if (argc == 2 && strcmp(argv[1], "numbers") == 0) {
        print_numbers();
        return 0;
    }
    if (argc != 4)
        return 2;
    size_t length = load(argv[1], longest, sizeof longest), a_length = load(argv[3], a, sizeof a);
    test_longest(longest, length, argv[2]);
    test_refusals(a, a_length, longest, length);
    test_null(a, a_length);
    test_plan(a, a_length);
    test_longest_plan(a, a_length);
    test_periods(a, a_length, longest, length);
    printf("the header: each figure of twenty years, each refusal, null, plans and lists of period ends, by their names\n");
    return 0;
}
