/* A plain reckoner in C by the steps of document 01 and the requests of document 02. It is not proved: the tests compare
 * with it, in bytes and in time. */
#include "plain.h"
#include <string.h>

__extension__ typedef unsigned __int128 wide;

static const unsigned built_in[12] = { 9130, 13511, 5654, 4821, 0, 8415, 9240, 3986, 4265, 5654, 5654, 0 };
static const unsigned lost[12] = { 24900, 30900, 0, 34500, 14100, 10000, 41700, 50600, 97200, 116900, 0, 0 };

struct input { const uint8_t *s; size_t n, at; };

static uint64_t field(struct input *in, int bytes)
{
    uint64_t v = 0;
    while (bytes--)
        v = v << 8 | in->s[in->at++];
    return v;
}

static int stands(const struct input *in, const char *mark)
{
    return in->n - in->at >= 2 && memcmp(in->s + in->at, mark, 2) == 0;
}

static int begin(struct input *in, const char *mark, size_t bytes)
{
    if (in->n - in->at < 2)
        return 1;
    if (!stands(in, mark))
        return 2;
    if (in->n - in->at - 2 < bytes)
        return 1;
    in->at += 2;
    return 0;
}

static uint64_t up(wide x, uint64_t by) { return (uint64_t)((x + by - 1) / by); }

/* a table of 64-bit numbers, and their sum */
static int table(struct input *in, const char *mark, uint64_t *cell, int count, wide *sum)
{
    int fault = begin(in, mark, 8 * (size_t)count);
    *sum = 0;
    for (int k = 0; !fault && k < count; k++)
        *sum += cell[k] = field(in, 8);
    return fault;
}

static const unsigned fuel[3] = { 318630, 306999, 310059 }, lime[3] = { 132, 143, 220 };
static const unsigned nitrogen[2][3] = { { 1325, 1425, 1225 }, { 625, 725, 525 } };

/* the fields of CR after its crop; its nitrogen is of source 3 */
static int residue(struct input *in, uint64_t crop, uint64_t *grams)
{
    uint64_t area = field(in, 4), yield = field(in, 4), share = field(in, 2);
    uint64_t above = field(in, 2), below = field(in, 2), above_content = field(in, 2), below_content = field(in, 2);
    if (crop < 1 || crop > 2 || area * yield > 100000000 || share > 10000)
        return -8;
    if (above > 500 || below > 500 || above_content > 10000 || below_content > 10000)
        return -8;
    wide n = (wide)area * yield * share * (above * above_content + below * below_content);
    *grams += up(n * nitrogen[crop - 1][2] * 3278, 7000000000000);
    return 0;
}

/* 1: no activity record stands here; 0: one is read; otherwise -fault. residues counts the CR */
static int activity(struct input *in, int before, int *residues, uint64_t *grams)
{
    static const char *marks[5] = { "FU", "VE", "NI", "LI", "CR" };
    static const int sizes[5] = { 9, 13, 12, 9, 19 };
    int m = 0, fault;
    while (m < 5 && !stands(in, marks[m]))
        m++;
    if (m == 5)
        return 1;
    if (before == 60 || (m == 4 && ++*residues == 3))
        return -9;
    if ((fault = begin(in, marks[m], (size_t)sizes[m])))
        return -fault;
    uint64_t kind = field(in, 1);
    if (m == 4)
        return residue(in, kind, grams);
    if (m == 2) {
        uint64_t crop = field(in, 1), g = field(in, 8), content = field(in, 2);
        if (kind < 1 || kind > 3 || crop < 1 || crop > 2 || g > 10000000000 || content > 10000)
            return -8;
        *grams += up((wide)g * content * nitrogen[crop - 1][kind - 1] * 3278, 7000000000);
        return 0;
    }
    uint64_t g;
    if (m == 1) {
        uint64_t count = field(in, 4), average = field(in, 4), each = field(in, 4);
        if (count > 1000 || average > 1000000 || each > 100000)
            return -8;
        g = count * average * each;
    } else
        g = field(in, 8);
    if (kind < 1 || kind > 3 || g > 1000000000000)
        return -8;
    *grams += m == 3 ? up((wide)g * lime[kind - 1], 300) : up((wide)g * fuel[kind - 1], 100000);
    return 0;
}

/* the activity records that stand here: their emissions, or the fault; 14 where one equals an earlier one, byte for byte */
static int activities(struct input *in, uint64_t *grams)
{
    size_t begins[61];
    int k = 0, residues = 0, fault;
    *grams = 0;
    for (begins[0] = in->at; (fault = activity(in, k, &residues, grams)) == 0; begins[++k] = in->at)
        for (int j = 0; j < k; j++)
            if (memcmp(in->s + begins[j], in->s + begins[k], in->at - begins[k]) == 0)
                return 14;
    return fault < 0 ? -fault : 0;
}

/* 12 where the plan is not of its form, 14 for two equal records of a year; without bytes there is none to judge */
static int judge(struct input plan)
{
    int before = -1, fault;
    uint64_t grams;
    if (plan.n == 0)
        return 0;
    for (int k = 0; stands(&plan, "PY"); k++) {
        if (k == 20 || begin(&plan, "PY", 2))
            return 12;
        int year = (int)field(&plan, 2);
        if (year <= before)
            return 12;
        if ((fault = activities(&plan, &grams)))
            return fault == 14 ? 14 : 12;
        before = year;
    }
    return begin(&plan, "EN", 0) || plan.at != plan.n ? 12 : 0;
}

/* the emissions that a plan has for a year; 13 where it lacks the year */
static int planned(struct input plan, int year, uint64_t *grams)
{
    while (begin(&plan, "PY", 2) == 0) {
        int found = (int)field(&plan, 2);
        activities(&plan, grams);
        if (found == year)
            return 0;
    }
    return 13;
}

/* the list of stocks in force: ST where it stands, otherwise the built-in one */
static int stocks(struct input *in, unsigned stock[12])
{
    int fault;
    memcpy(stock, built_in, sizeof built_in);
    if (!stands(in, "ST"))
        return 0;
    if ((fault = begin(in, "ST", 24)))
        return fault;
    for (int i = 0; i < 12; i++)
        if ((stock[i] = (unsigned)field(in, 2)) > (i == 11 ? 0 : 50000))
            fault = 11;
    return fault;
}

static unsigned factor(const unsigned stock[12], int i, int j)
{
    return stock[i] > stock[j] && j != 9 && j != 10 ? stock[i] - stock[j] : 0;
}

/* a year's projection: the areas and the balance move on, and the carbon is answered */
static wide project(uint64_t *area, uint64_t *balance, unsigned matrix[12][12], unsigned factors[12][12])
{
    uint64_t next[12] = { 0 };
    wide carbon = 0;
    for (int i = 0; i < 12; i++) {
        uint64_t rest = area[i];
        for (int j = 0; j < 12; j++) {
            uint64_t flow = (uint64_t)((wide)area[i] * matrix[i][j] / 1000000);
            carbon += (wide)flow * factors[i][j];
            next[j] += flow;
            rest -= flow;
        }
        *balance += rest;
    }
    memcpy(area, next, sizeof next);
    return carbon;
}

/* a table of conversions: their emissions; counted has the factors that count */
static int monitored(struct input *in, const char *mark, wide start, unsigned counted[144], uint64_t *emitted)
{
    wide carbon = 0;
    uint64_t cell[144];
    wide sum;
    int fault = table(in, mark, cell, 144, &sum);
    if (fault)
        return fault;
    if (sum != start)
        return 7;
    for (int k = 0; k < 144; k++)
        carbon += (wide)cell[k] * counted[k];
    *emitted = up(carbon * 11, 300);
    return 0;
}

/* 15 where the list of period ends does not rise within these years, up to the last; an empty one is sound */
static int judge_ends(const uint16_t *ends, size_t count, int first, int last)
{
    int before = first - 1;
    for (size_t k = 0; k < count; before = ends[k++])
        if (ends[k] <= before || ends[k] > last)
            return 15;
    return count && before != last ? 15 : 0;
}

static int64_t tonnes(int64_t grams) { return grams > 0 ? grams / 1000000 : 0; }

/* the tonnes issued at each end; running has the credited totals before each year and after the last */
static void issue(const uint16_t *ends, size_t count, int first, const int64_t *running, int64_t *issued)
{
    int64_t before = 0;
    for (size_t k = 0; k < count; before += issued[k++]) {
        int64_t more = tonnes(running[ends[k] - first + 1]) - before;
        issued[k] = more < 0 ? 0 : more;
    }
}

uint32_t plain_reckon(const uint8_t *dossier, size_t dossier_len, const uint8_t *plan, size_t plan_len, const uint16_t *ends, size_t ends_len,
                      uint8_t *result, size_t result_len)
{
    struct input in = { dossier, dossier_len, 0 }, lent = { plan, plan_len, 0 };
    uint64_t area[2][12], balance[2] = { 0, 0 };
    unsigned stock[12], matrix[12][12] = { { 0 } }, factors[12][12], counted[144];
    int64_t out[8 * 20 + 4 + 20], running[21] = { 0 };
    wide start[2];
    int fault;

    if ((fault = judge(lent)))
        return (uint32_t)fault;
    if ((fault = begin(&in, "HD", 4)))
        return (uint32_t)fault;
    int option = (int)field(&in, 1), first = (int)field(&in, 2), n = (int)field(&in, 1);
    if (option < 1 || option > 2 || first < 2000 || first > 2200 || n < 1 || n > 20)
        return 3;
    if ((fault = stocks(&in, stock)))
        return (uint32_t)fault;
    for (int r = 0; r < 2; r++) {
        if ((fault = table(&in, r ? "DA" : "PA", area[r], 12, &start[r])))
            return (uint32_t)fault;
        if (start[r] > 1000000000000 || (r == 0 && start[r] == 0))
            return 4;
    }
    if (option == 2 && (fault = begin(&in, "MP", 576)))
        return (uint32_t)fault;
    for (int i = 0; i < 12; i++) {
        uint64_t row = 0;
        for (int j = 0; j < 12; j++) {
            factors[i][j] = factor(stock, i, j);
            counted[12 * i + j] = option == 2 || j == 11 ? factors[i][j] : 0;
            if (option == 2)
                row += matrix[i][j] = (unsigned)field(&in, 4);
        }
        if (option == 2 && row != 1000000)
            return 5;
        if (option == 1) {
            matrix[i][i] = 1000000 - lost[i];
            matrix[i][11] += lost[i];
        }
    }
    for (int y = 0; y < n; y++) {
        if ((fault = begin(&in, "YR", 4)))
            return (uint32_t)fault;
        int year = (int)field(&in, 2), d = (int)field(&in, 2);
        int days = year % 4 == 0 && (year % 100 != 0 || year % 400 == 0) ? 366 : 365;
        if (year != first + y || d < 1 || d > days)
            return 6;
        uint64_t emitted[2], grams;
        for (int r = 0; r < 2; r++)
            if ((fault = monitored(&in, r ? "CD" : "CP", start[r], counted, &emitted[r])))
                return (uint32_t)fault;
        int by_plan = stands(&in, "PL");
        if (by_plan)
            in.at += 2;
        if ((fault = by_plan ? planned(lent, year, &grams) : activities(&in, &grams)))
            return (uint32_t)fault;
        int64_t *f = out + 8 * y;
        for (int r = 0; r < 2; r++) {
            f[r ? 4 : 0] = (int64_t)(project(area[r], &balance[r], matrix, factors) * 11 * (unsigned)d / (300 * (unsigned)days));
            f[r ? 3 : 1] = (int64_t)emitted[r];
        }
        f[2] = (int64_t)grams;
        f[5] = f[3] > f[4] ? f[3] - f[4] : 0;
        if (by_plan && 20 * f[2] >= f[1] + f[5] + f[2])
            return 13;
        f[6] = f[0] - f[1] - f[2] - f[5];
        f[7] = f[6] < 0 ? f[6] : f[6] * 4 / 5;
        running[y + 1] = running[y] + f[7];
    }
    if (stands(&in, "YR"))
        return in.n - in.at < 6 ? 1 : 6;
    if ((fault = begin(&in, "EN", 0)))
        return (uint32_t)fault;
    if (in.at != in.n)
        return 2;
    if ((fault = judge_ends(ends, ends_len, first, first + n - 1)))
        return (uint32_t)fault;
    if (result_len < 64 * (size_t)n + 32 + 8 * ends_len)
        return 10;
    int64_t *f = out + 8 * n;
    f[0] = running[n];
    f[1] = tonnes(running[n]);
    f[2] = (int64_t)balance[0];
    f[3] = (int64_t)balance[1];
    issue(ends, ends_len, first, running, f + 4);
    for (int k = 0; k < 8 * n + 4 + (int)ends_len; k++)
        for (int b = 0; b < 8; b++)
            result[8 * k + b] = (uint8_t)((uint64_t)out[k] >> (56 - 8 * b));
    return 0;
}
