/* The yardstick of the benchmark: the same steps as tests/plain.c, written for speed. Loads and stores are byte-swapped
 * words; no product and no division is wider than 64 bits; a table is weighed as it is read, a row of twelve at a time; no
 * table is copied. A plan is judged once, and its index says where a year's records stand. Each record but CR is packed into
 * one word, and an equal one is looked for only where a filter has seen its slot; a second CR is compared with the first. A
 * list of period ends is judged and its tonnes are issued in one pass. It is not proved: tests/run compares it as it does the
 * plain one, by clang too where that is there. */
#include "plain.h"
#include <string.h>

#define INLINE static inline __attribute__((always_inline))
#define APART static __attribute__((noinline)) /* kept out of the code that most calls run through */
#define UNROLL _Pragma("GCC unroll 12")
#define MOST 1000000000000u

typedef const uint8_t *bytes;

static const uint32_t built_in[12] = { 9130, 13511, 5654, 4821, 0, 8415, 9240, 3986, 4265, 5654, 5654, 0 };
static const uint32_t lost[12] = { 24900, 30900, 0, 34500, 14100, 10000, 41700, 50600, 97200, 116900, 0, 0 };
static const uint32_t fuel[3] = { 318630, 306999, 310059 }, lime[3] = { 132, 143, 220 };
static const uint32_t nitrogen[2][3] = { { 1325, 1425, 1225 }, { 625, 725, 525 } };

INLINE uint32_t field16(bytes s) { return (uint32_t)s[0] << 8 | s[1]; }
INLINE uint32_t field32(bytes s) { uint32_t v; memcpy(&v, s, 4); return __builtin_bswap32(v); }
INLINE uint64_t field64(bytes s) { uint64_t v; memcpy(&v, s, 8); return __builtin_bswap64(v); }
INLINE uint64_t up(uint64_t x, uint64_t by) { return (x + by - 1) / by; }

#define MARK(a, b) ((uint32_t)(a) << 8 | (b))

/* 0 where the mark and its fields stand at s, otherwise the fault */
INLINE uint32_t begin(bytes s, bytes end, uint32_t mark, size_t fields)
{
    size_t left = (size_t)(end - s);
    if (left < 2)
        return 1;
    if (field16(s) != mark)
        return 2;
    return left - 2 < fields;
}

/* PA or DA: twelve areas, and their sum where it is sound */
INLINE uint32_t areas(bytes s, uint64_t area[12], uint64_t *sum)
{
    uint64_t all = 0;
    int above = 0;
    for (int i = 0; i < 12; i++) {
        area[i] = field64(s + 8 * i);
        above |= area[i] > MOST;
        all += area[i];
    }
    *sum = all;
    return above | (all > MOST);
}

/* a table of conversions, weighed as it is read; 7 where its sum is not the starting area. Each compiler has the form that
 * is fastest by it: gcc with each entry tested against the total as it is read, and a row's sum against what is left; clang
 * with the twelve entries of a row tested together, against the greatest total, and the sum at the end. */
#ifdef __clang__
INLINE uint32_t monitored(bytes s, uint64_t start, uint64_t counted[12][12], uint64_t *emitted)
{
    uint64_t sum = 0, carbon = 0;
    for (int i = 0; i < 12; i++) {
        uint64_t cell[12], row = 0, weight = 0;
        int above = 0;
        UNROLL for (int j = 0; j < 12; j++)
            cell[j] = field64(s + 96 * i + 8 * j);
        UNROLL for (int j = 0; j < 12; j++)
            above |= cell[j] > MOST;
        UNROLL for (int j = 0; j < 12; j++) {
            row += cell[j];
            weight += cell[j] * counted[i][j];
        }
        if (above)
            return 7;
        sum += row;
        carbon += weight;
    }
    *emitted = up(carbon * 11, 300);
    return sum != start ? 7 : 0;
}
#else
INLINE uint32_t monitored(bytes s, uint64_t start, uint64_t counted[12][12], uint64_t *emitted)
{
    uint64_t left = start, carbon = 0;
    for (int i = 0; i < 12; i++) {
        uint64_t row = 0;
        UNROLL for (int j = 0; j < 12; j++) {
            uint64_t cell = field64(s + 96 * i + 8 * j);
            if (cell > start)
                return 7;
            row += cell;
            carbon += cell * counted[i][j];
        }
        if (row > left)
            return 7;
        left -= row;
    }
    *emitted = up(carbon * 11, 300);
    return left ? 7 : 0;
}
#endif

/* a year's projection: the areas and the balance move on, and the carbon is answered */
INLINE uint64_t project(uint64_t area[12], uint64_t *balance, uint64_t matrix[12][12], uint64_t factors[12][12])
{
    uint64_t next[12] = { 0 }, carbon = 0, before = 0, after = 0;
    for (int i = 0; i < 12; i++)
        for (int j = 0; j < 12; j++) {
            uint64_t flow = area[i] * matrix[i][j] / 1000000;
            carbon += flow * factors[i][j];
            next[j] += flow;
        }
    for (int i = 0; i < 12; i++) {
        before += area[i];
        after += next[i];
        area[i] = next[i];
    }
    *balance += before - after;
    return carbon;
}

/* carbon × 11 × d ÷ (300 × D), by a constant D */
INLINE uint64_t by_days(uint64_t carbon, uint64_t d, uint64_t D)
{
    return carbon / (300 * D) * (11 * d) + carbon % (300 * D) * (11 * d) / (300 * D);
}

INLINE uint64_t reference(uint64_t carbon, uint64_t d, int leap)
{
    return leap ? by_days(carbon, d, 366) : by_days(carbon, d, 365);
}

/* The filter for equal records: a run marks the slots of its records with its own stamp, so that the flags are cleared once. */
enum { SLOT_BITS = 12 };
struct filter { uint8_t stamp, flags[1 << SLOT_BITS]; };

INLINE uint32_t slot(uint64_t key) { return (uint32_t)(key * 11400714819323198485u >> (64 - SLOT_BITS)); }

/* begins a run by its first record's key, once there is a second record; its stamp is answered */
INLINE uint8_t begin_run(struct filter *filter, uint64_t first)
{
    if (filter->stamp == 0)
        memset(filter->flags, 0, sizeof filter->flags);
    return filter->flags[slot(first)] = ++filter->stamp;
}

/* whether a record equals an earlier one of its run, by their keys: these are looked through only where the run has marked
 * the slot, and then without an early exit, so that several are compared at once */
INLINE int repeated(struct filter *filter, uint8_t *stamp, uint64_t keys[60], int before, uint64_t key)
{
    if (__builtin_expect(before < 2, 0)) {
        if (before == 0) {
            keys[0] = key;
            return 0;
        }
        *stamp = begin_run(filter, keys[0]);
    }
    uint32_t at = slot(key);
    if (__builtin_expect(filter->flags[at] == *stamp, 0)) {
        uint64_t found = 0;
        for (int k = 0; k < before; k++)
            found |= keys[k] == key;
        if (found)
            return 1;
    }
    filter->flags[at] = *stamp;
    keys[before] = key;
    return 0;
}

/* a CR's emissions, or NONE where a field is out of range; fastest apart by clang, in its place by gcc. Its nitrogen fits 64
 * bits; the shares of source 3 and the divisor 7 × 10^12 are multiples of 7. */
#define NONE UINT64_MAX
#ifdef __clang__
APART
#else
INLINE
#endif
uint64_t of_residue(bytes s)
{
    uint64_t crop = s[2] - 1u, dry = (uint64_t)field32(s + 3) * field32(s + 7), share = field16(s + 11);
    uint64_t above = field16(s + 13), below = field16(s + 15), above_content = field16(s + 17), below_content = field16(s + 19);
    if ((crop > 1) | (dry > 100000000) | (share > 10000) | (above > 500) | (below > 500) | (above_content > 10000) | (below_content > 10000))
        return NONE;
    uint64_t n = dry * share * (above * above_content + below * below_content), weight = nitrogen[crop][2] / 7 * 3278;
    return n / 1000000000000 * weight + up(n % 1000000000000 * weight, 1000000000000);
}

INLINE uint32_t read_residue(bytes s, uint64_t *sum)
{
    uint64_t emitted = of_residue(s);
    if (emitted == NONE)
        return 8;
    *sum += emitted;
    return 0;
}

/* whether two CR are equal: the 19 bytes of their fields, by words that overlap */
INLINE int same_residue(bytes a, bytes b)
{
    return ((field64(a + 2) ^ field64(b + 2)) | (field64(a + 10) ^ field64(b + 10)) | (field64(a + 13) ^ field64(b + 13))) == 0;
}

/* A CR has no key, and leaves room for one key less: most is 60, 59 after the first CR and 58 after the second. */
#define RESIDUE                                                   \
    if (keyed == most || most == 58)                              \
        return 9;                                                 \
    if (left < 21)                                                \
        return 1;                                                 \
    if (read_residue(s, &sum))                                    \
        return 8;                                                 \
    if (filter && most == 59 && same_residue(residue, s))         \
        return 14;                                                \
    residue = s;                                                  \
    most--;                                                       \
    s += 21

/* the activity records from s on: their emissions, and the place after the last; or the fault. Without a filter they are
 * known to be different. Each compiler has the form that is fastest by it: clang a reader for each mark, gcc one for all. */
#ifdef __clang__
/* the readers: 8, or the emissions are added and the key is set, which has all fields and the mark */
INLINE uint32_t read_vehicles(bytes s, uint64_t *sum, uint64_t *key)
{
    uint64_t kind = s[2] - 1u, count = field32(s + 3), average = field32(s + 7), each = field32(s + 11), g = count * average * each;
    if ((kind > 2) | (count > 1000) | (average > 1000000) | (each > 100000) | (g > MOST))
        return 8;
    *sum += up(g * fuel[kind], 100000);
    *key = each << 34 | average << 14 | count << 4 | kind << 2 | 1;
    return 0;
}

INLINE uint32_t read_nitrogen(bytes s, uint64_t *sum, uint64_t *key)
{
    uint64_t source = s[2] - 1u, crop = s[3] - 1u, g = field64(s + 4), content = field16(s + 12);
    if ((source > 2) | (crop > 1) | (g > 10000000000) | (content > 10000))
        return 8;
    uint64_t x = g * content * nitrogen[crop][source];
    *sum += x / 7000000000 * 3278 + up(x % 7000000000 * 3278, 7000000000);
    *key = g << 20 | content << 6 | crop << 4 | source << 2 | 2;
    return 0;
}

INLINE uint32_t read_amount(bytes s, int liming, uint64_t *sum, uint64_t *key)
{
    uint64_t kind = s[2] - 1u, g = field64(s + 3);
    if ((kind > 2) | (g > MOST))
        return 8;
    *sum += liming ? up(g * lime[kind], 300) : up(g * fuel[kind], 100000);
    *key = g << 4 | kind << 2 | (liming ? 3 : 0);
    return 0;
}

/* a record of so many bytes, and its reader */
#define RECORD(size, read)    \
    if (keyed == most)        \
        return 9;             \
    if (left < (size))        \
        return 1;             \
    if (read)                 \
        return 8;             \
    s += (size)

INLINE uint32_t activities(bytes *at, bytes end, struct filter *filter, uint64_t *grams)
{
    bytes s = *at, residue = NULL;
    uint64_t sum = 0, keys[60];
    uint8_t stamp = 0;
    int most = 60;
    for (int keyed = 0;;) {
        size_t left = (size_t)(end - s);
        uint64_t key;
        switch (left < 2 ? 0 : field16(s)) {
        case MARK('V', 'E'): RECORD(15, read_vehicles(s, &sum, &key)); break;
        case MARK('N', 'I'): RECORD(14, read_nitrogen(s, &sum, &key)); break;
        case MARK('F', 'U'): RECORD(11, read_amount(s, 0, &sum, &key)); break;
        case MARK('L', 'I'): RECORD(11, read_amount(s, 1, &sum, &key)); break;
        case MARK('C', 'R'): RESIDUE; continue;
        default:
            *at = s;
            *grams = sum;
            return 0;
        }
        if (filter && repeated(filter, &stamp, keys, keyed, key))
            return 14;
        keyed++;
    }
}
#else
INLINE uint32_t activities(bytes *at, bytes end, struct filter *filter, uint64_t *grams)
{
    bytes s = *at, residue = NULL;
    uint64_t sum = 0, keys[60];
    uint8_t stamp = 0;
    int most = 60;
    for (int keyed = 0;;) {
        size_t left = (size_t)(end - s);
        uint32_t mark = left < 2 ? 0 : field16(s);
        if (mark != MARK('F', 'U') && mark != MARK('V', 'E') && mark != MARK('N', 'I') && mark != MARK('L', 'I')) {
            if (mark != MARK('C', 'R'))
                break;
            RESIDUE;
            continue;
        }
        if (keyed == most)
            return 9;
        if (left < (mark == MARK('V', 'E') ? 15 : mark == MARK('N', 'I') ? 14 : 11))
            return 1;
        uint32_t kind = s[2] - 1u;
        if (kind > 2)
            return 8;
        uint64_t key;
        if (mark == MARK('N', 'I')) {
            uint64_t crop = s[3] - 1u, g = field64(s + 4), content = field16(s + 12);
            if (crop > 1 || g > 10000000000 || content > 10000)
                return 8;
            uint64_t x = g * content * nitrogen[crop][kind];
            sum += x / 7000000000 * 3278 + up(x % 7000000000 * 3278, 7000000000);
            key = g << 20 | content << 6 | crop << 4 | kind << 2 | 2;
            s += 14;
        } else {
            uint64_t g;
            if (mark == MARK('V', 'E')) {
                uint64_t count = field32(s + 3), average = field32(s + 7), each = field32(s + 11);
                if ((count > 1000) | (average > 1000000) | (each > 100000))
                    return 8;
                g = count * average * each;
                key = each << 34 | average << 14 | count << 4 | kind << 2 | 1;
                s += 15;
            } else {
                g = field64(s + 3);
                key = g << 4 | kind << 2 | (mark == MARK('L', 'I') ? 3 : 0);
                s += 11;
            }
            if (g > MOST)
                return 8;
            sum += mark == MARK('L', 'I') ? up(g * lime[kind], 300) : up(g * fuel[kind], 100000);
        }
        if (filter && repeated(filter, &stamp, keys, keyed, key))
            return 14;
        keyed++;
    }
    *at = s;
    *grams = sum;
    return 0;
}
#endif

/* a plan's years in their order, and where the records of each begin */
struct plan { uint32_t years, next, year[20]; bytes end, records[20]; };

/* 12 where the plan is not of its form, 14 for two equal records of a year */
APART uint32_t judge(bytes s, size_t length, struct plan *plan)
{
    bytes end = plan->end = s + length;
    struct filter filter;
    filter.stamp = 0;
    for (uint32_t k = 0; begin(s, end, MARK('P', 'Y'), 2) == 0; k++) {
        uint64_t grams;
        uint32_t year = field16(s + 2), fault;
        if (k == 20 || (k > 0 && year <= plan->year[k - 1]))
            return 12;
        s += 4;
        plan->year[k] = year;
        plan->records[k] = s;
        plan->years = k + 1;
        if ((fault = activities(&s, end, &filter, &grams)))
            return fault == 14 ? 14 : 12;
    }
    return end - s == 2 && field16(s) == MARK('E', 'N') ? 0 : 12;
}

/* the emissions that the plan has for a year, read where its records stand; 13 where it lacks the year */
APART uint32_t by_plan(struct plan *plan, uint32_t year, uint64_t *grams)
{
    uint32_t k = plan->next;
    while (k < plan->years && plan->year[k] < year)
        k++;
    plan->next = k;
    if (k == plan->years || plan->year[k] != year)
        return 13;
    bytes s = plan->records[k];
    return activities(&s, plan->end, NULL, grams);
}

/* ST: twelve stocks; 11 where one is out of range */
INLINE uint32_t stocks(bytes s, uint32_t stock[12])
{
    int above = 0;
    UNROLL for (int i = 0; i < 12; i++) {
        stock[i] = field16(s + 2 * i);
        above |= stock[i] > 50000;
    }
    return above || stock[11] ? 11 : 0;
}

/* both tables of factors, of the list of stocks in force */
INLINE void weights(const uint32_t stock[12], uint64_t factors[12][12], uint64_t counted[12][12], uint32_t option)
{
    for (int i = 0; i < 12; i++)
        for (int j = 0; j < 12; j++) {
            factors[i][j] = stock[i] > stock[j] && j != 9 && j != 10 ? stock[i] - stock[j] : 0;
            counted[i][j] = option == 2 || j == 11 ? factors[i][j] : 0;
        }
}

/* MP under Option 2, otherwise Option 1's matrix; 5 where a row's sum is wrong */
INLINE uint32_t probabilities(bytes s, uint32_t option, uint64_t matrix[12][12])
{
    for (int i = 0; i < 12; i++) {
        uint64_t row = 0;
        for (int j = 0; j < 12; j++)
            if (option == 2)
                row += matrix[i][j] = field32(s + 48 * i + 4 * j);
            else
                matrix[i][j] = j == i ? 1000000 - lost[i] : j == 11 ? lost[i] : 0;
        if (option == 2 && row != 1000000)
            return 5;
    }
    return 0;
}

INLINE int64_t tonnes(int64_t grams) { return grams > 0 ? grams / 1000000 : 0; }

/* the tonnes issued at each end, which follow the n years and their four numbers in out; 15 where the list is not sound */
APART uint32_t issue(const uint16_t *ends, size_t count, uint32_t first, uint32_t n, int64_t *out)
{
    int64_t running = 0, before = 0;
    uint32_t y = 0;
    for (size_t k = 0; k < count; k++) {
        if (ends[k] < first + y || ends[k] >= first + n)
            return 15;
        while (first + y <= ends[k])
            running += out[8 * y++ + 7];
        int64_t all = tonnes(running), more = all > before ? all - before : 0;
        before += more;
        out[8 * n + 4 + k] = more;
    }
    return y < n ? 15 : 0;
}

uint32_t plain_reckon(const uint8_t *dossier, size_t dossier_len, const uint8_t *plan, size_t plan_len, const uint16_t *ends, size_t ends_len,
                      uint8_t *result, size_t result_len)
{
    bytes s = dossier, end = dossier + dossier_len;
    uint64_t area[2][12], start[2], balance[2] = { 0, 0 };
    uint64_t matrix[12][12], factors[12][12], counted[12][12];
    uint32_t fault, filed[12];
    const uint32_t *stock = built_in;
    int64_t out[8 * 20 + 4 + 20], total = 0;
    struct plan lent;
    struct filter filter;

    lent.years = lent.next = filter.stamp = 0;
    if (plan_len && (fault = judge(plan, plan_len, &lent)))
        return fault;
    if ((fault = begin(s, end, MARK('H', 'D'), 4)))
        return fault;
    uint32_t option = s[2], first = field16(s + 3), n = s[5];
    if (option < 1 || option > 2 || first < 2000 || first > 2200 || n < 1 || n > 20)
        return 3;
    s += 6;
    if (begin(s, end, MARK('S', 'T'), 0) == 0) {
        if ((fault = begin(s, end, MARK('S', 'T'), 24)) || (fault = stocks(s + 2, filed)))
            return fault;
        stock = filed;
        s += 26;
    }
    for (int r = 0; r < 2; r++, s += 98) {
        if ((fault = begin(s, end, r ? MARK('D', 'A') : MARK('P', 'A'), 96)))
            return fault;
        if (areas(s + 2, area[r], &start[r]) || (r == 0 && start[r] == 0))
            return 4;
    }
    bytes rows = s;
    if (option == 2) {
        if ((fault = begin(s, end, MARK('M', 'P'), 576)))
            return fault;
        rows = s + 2;
        s += 578;
    }
    if ((fault = probabilities(rows, option, matrix)))
        return fault;
    weights(stock, factors, counted, option);
    for (uint32_t y = 0; y < n; y++) {
        if ((fault = begin(s, end, MARK('Y', 'R'), 4)))
            return fault;
        uint32_t year = field16(s + 2), d = field16(s + 4);
        int leap = year % 4 == 0 && (year % 100 != 0 || year % 400 == 0);
        if (year != first + y || d < 1 || d > 365u + (uint32_t)leap)
            return 6;
        s += 6;
        uint64_t emitted[2], grams;
        for (int r = 0; r < 2; r++, s += 1154) {
            if ((fault = begin(s, end, r ? MARK('C', 'D') : MARK('C', 'P'), 1152)))
                return fault;
            if ((fault = monitored(s + 2, start[r], counted, &emitted[r])))
                return fault;
        }
        int planned = begin(s, end, MARK('P', 'L'), 0) == 0;
        if ((fault = planned ? by_plan(&lent, year, &grams) : activities(&s, end, &filter, &grams)))
            return fault;
        s += planned ? 2 : 0;
        int64_t *f = out + 8 * y;
        f[0] = (int64_t)reference(project(area[0], &balance[0], matrix, factors), d, leap);
        f[1] = (int64_t)emitted[0];
        f[2] = (int64_t)grams;
        f[3] = (int64_t)emitted[1];
        f[4] = (int64_t)reference(project(area[1], &balance[1], matrix, factors), d, leap);
        f[5] = f[3] > f[4] ? f[3] - f[4] : 0;
        if (planned && 20 * f[2] >= f[1] + f[5] + f[2])
            return 13;
        f[6] = f[0] - f[1] - f[2] - f[5];
        f[7] = f[6] < 0 ? f[6] : f[6] * 4 / 5;
        total += f[7];
    }
    size_t left = (size_t)(end - s);
    if (left >= 2 && field16(s) == MARK('Y', 'R'))
        return left < 6 ? 1 : 6;
    if ((fault = begin(s, end, MARK('E', 'N'), 0)))
        return fault;
    if (left != 2)
        return 2;
    if (ends_len && (fault = issue(ends, ends_len, first, n, out)))
        return fault;
    if (result_len < 64 * (size_t)n + 32 + 8 * ends_len)
        return 10;
    int64_t *f = out + 8 * n;
    f[0] = total;
    f[1] = tonnes(total);
    f[2] = (int64_t)balance[0];
    f[3] = (int64_t)balance[1];
    for (size_t k = 0; k < 8 * n + 4 + ends_len; k++) {
        uint64_t v = __builtin_bswap64((uint64_t)out[k]);
        memcpy(result + 8 * k, &v, 8);
    }
    return 0;
}
