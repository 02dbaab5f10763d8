/* The KH_AM004 forest credit reckoner for a host in C. Link with libreckoner.a, which `tools/build reckoner_c` makes for
 * x86-64, where size_t has 64 bits. CHANGELOG.md has what each version brought. */
#ifndef KH_AM004_H
#define KH_AM004_H

#include <stddef.h>
#include <stdint.h>

#ifdef __cplusplus
extern "C" {
#endif

/* The version of this header and of the library that belongs to it. The first number rises where something here changes
 * its meaning, a figure its rule of reckoning, or a dossier that was accepted is refused; the second where something is
 * added or, with the same answers, takes less time. */
#define KH_AM004_VERSION_MAJOR 3
#define KH_AM004_VERSION_MINOR 2

/* Bytes of the report of n years: without a list of period ends, and with so many listed ends. */
#define KH_AM004_REPORT_BYTES(n) (64 * (size_t)(n) + 32)
#define KH_AM004_PERIODS_BYTES(n, ends) (KH_AM004_REPORT_BYTES(n) + 8 * (size_t)(ends))

/* The greatest number of years and of listed ends, and the bytes of the longest dossier, of the longest plan, and of the
 * longest report, without a list and with one. */
#define KH_AM004_MOST_YEARS 20
#define KH_AM004_MOST_PERIODS 20
#define KH_AM004_LONGEST_DOSSIER 65328
#define KH_AM004_LONGEST_PLAN 18322
#define KH_AM004_LONGEST_REPORT 1312
#define KH_AM004_LONGEST_PERIODS 1472

/* Where the report holds what. Year y, counted from 0, begins at KH_AM004_AT_YEAR(y), and its figures stand at these
 * offsets from there. */
#define KH_AM004_AT_YEAR(y) (64 * (size_t)(y))
enum kh_am004_at {
    KH_AM004_AT_REFERENCE = 0,
    KH_AM004_AT_PROJECT = 8,
    KH_AM004_AT_ACTIVITY = 16,
    KH_AM004_AT_BELT = 24,
    KH_AM004_AT_BELT_REFERENCE = 32,
    KH_AM004_AT_DISPLACED = 40,
    KH_AM004_AT_REDUCTION = 48,
    KH_AM004_AT_CREDITED = 56
};

/* After the n-th year stand these four, at offsets from the report's start. */
#define KH_AM004_AT_TOTAL(n) (64 * (size_t)(n))
#define KH_AM004_AT_TONNES(n) (64 * (size_t)(n) + 8)
#define KH_AM004_AT_BALANCE(n) (64 * (size_t)(n) + 16)
#define KH_AM004_AT_BELT_BALANCE(n) (64 * (size_t)(n) + 24)

/* After those stand the tonnes issued at the k-th listed end, counted from 0. */
#define KH_AM004_AT_ISSUED(n, k) (KH_AM004_REPORT_BYTES(n) + 8 * (size_t)(k))

/* The number that a call answers; kh_am004_text has its words. */
enum kh_am004_number {
    KH_AM004_ACCEPTED = 0,
    KH_AM004_REFUSED_BYTES_END = 1,
    KH_AM004_REFUSED_MARK = 2,
    KH_AM004_REFUSED_HEAD = 3,
    KH_AM004_REFUSED_AREAS = 4,
    KH_AM004_REFUSED_MATRIX = 5,
    KH_AM004_REFUSED_YEAR = 6,
    KH_AM004_REFUSED_CONVERSIONS = 7,
    KH_AM004_REFUSED_ACTIVITY = 8,
    KH_AM004_REFUSED_RECORDS = 9,
    KH_AM004_REFUSED_BUFFER = 10,
    KH_AM004_REFUSED_STOCKS = 11,
    KH_AM004_REFUSED_PLAN = 12,
    KH_AM004_REFUSED_PLANNED = 13,
    KH_AM004_REFUSED_REPEATED = 14,
    KH_AM004_REFUSED_PERIODS = 15
};

/* What a number says, in English; "unknown number" for any that no call answers. */
static inline const char *kh_am004_text(uint32_t number)
{
    switch (number) {
    case KH_AM004_ACCEPTED: return "nothing wrong: accepted";
    case KH_AM004_REFUSED_BYTES_END: return "the bytes end too early";
    case KH_AM004_REFUSED_MARK: return "a record where it may not stand, EN with years still missing, or bytes after EN";
    case KH_AM004_REFUSED_HEAD: return "HD: option, first year or number of years";
    case KH_AM004_REFUSED_AREAS: return "PA or DA: total of the areas";
    case KH_AM004_REFUSED_MATRIX: return "MP: a row does not sum to 1,000,000";
    case KH_AM004_REFUSED_YEAR: return "YR: not the next year, one more than n, or operating days";
    case KH_AM004_REFUSED_CONVERSIONS:
        return "CP or CD: the conversions do not sum to the area at inception, that of PA or of DA";
    case KH_AM004_REFUSED_ACTIVITY: return "an activity record's field, or the product of VE or of CR";
    case KH_AM004_REFUSED_RECORDS: return "a 61st activity record or a third CR in one year";
    case KH_AM004_REFUSED_BUFFER: return "the result buffer is too short";
    case KH_AM004_REFUSED_STOCKS: return "ST: a carbon stock above 50,000, or that of NF not 0";
    case KH_AM004_REFUSED_PLAN: return "the plan: not of its form";
    case KH_AM004_REFUSED_PLANNED: return "PL: the plan lacks the year, or its emissions are not small enough";
    case KH_AM004_REFUSED_REPEATED:
        return "two activity records of a year are equal in mark and all fields, in the dossier or in the plan";
    case KH_AM004_REFUSED_PERIODS:
        return "the list of period ends: not rising, outside the dossier's years, or without its last year";
    default: return "unknown number";
    }
}

/*
 * Reckons a dossier, its PL years by the records that the plan has for them, and issues tonnes at the end of each
 * verification period, by the list of their last years; plan_len 0 is no plan, ends_len 0 no list. 0: the report stands
 * at the start of result, and the bytes beyond it are as they were. Otherwise the number of the refusal, and every byte
 * of result is as it was. The plan is judged before the dossier, whether or not it is used, and its first fault counts:
 * 14 for two equal records of a planned year, as in a year of the dossier, 12 for any other. The list is judged after
 * both, and 10 comes last, which counts the issued tonnes too.
 *
 * The caller owes valid pointers: dossier to dossier_len bytes, plan to plan_len bytes and ends to ends_len numbers that
 * can be read and may overlap, result to result_len bytes that can be written, and it must not overlap the other three.
 * A pointer may be null where its length is 0. The call keeps none, needs no heap, and may be made from several threads
 * at once.
 *
 * The report is of big-endian 64-bit numbers in two's complement: each year's figures and the total in grams of CO2,
 * the tonnes, the balances in millionths of a hectare, and the tonnes issued at each listed end.
 *
 * ends_len is the count of years, not of bytes. The years are numbers in the host's own byte order, aligned as uint16_t
 * is, while dossier, plan and report are big-endian bytes. They rise strictly and are years of the dossier, the last its
 * last year; otherwise 15. An empty list means one period, and the report is that of the calls without a list.
 *
 * The tonnes issued at an end are the whole tonnes of the running total, which is the sum of the credited figures up to
 * that year, less those issued before, and 0 if that is negative. An owner can rely on this: after each end, all issued
 * tonnes together equal the greatest of 0 and the whole tonnes of every running total at an end so far.
 */
uint32_t kh_am004_reckon_periods(const uint8_t *dossier, size_t dossier_len, const uint8_t *plan, size_t plan_len,
                                 const uint16_t *ends, size_t ends_len, uint8_t *result, size_t result_len);

/* kh_am004_reckon_periods with no list. */
uint32_t kh_am004_reckon_plan(const uint8_t *dossier, size_t dossier_len, const uint8_t *plan, size_t plan_len,
                              uint8_t *result, size_t result_len);

/* kh_am004_reckon_periods with neither list nor plan: a dossier with a PL year is refused. */
uint32_t kh_am004_reckon(const uint8_t *dossier, size_t dossier_len, uint8_t *result, size_t result_len);

#ifdef __cplusplus
}
#endif

#endif
