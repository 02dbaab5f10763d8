/* Compares the proved reckoner with the plain one: the same number and the same bytes on dossiers and plans sound, cut,
 * padded and spoilt, none with two equal records in a year (#105) but where a pair is meant, and on lists of period ends
 * sound and spoilt; what an owner can rely on (#107); a thread stack of 64 KiB; and, on the longest dossier, no longer a
 * time. The argument is another seed; a second one leaves the times out. Where they differ it prints the seed, and
 * target/difference.dossier and .plan have the bytes, target/difference.ends the years as text. */
#define _POSIX_C_SOURCE 200809L
#include "kh_am004.h"
#include "plain.h"
#include <pthread.h>
#include <stdio.h>
#include <stdlib.h>
#include <string.h>
#include <time.h>

enum { FU, VE, NI, LI, CR };
enum { ONE = 1000000, MOST_RECORDS = 5 + 21 * (3 + 61) + 1, BUFFER = 1600 };

/* bytes, and of those in the making where each record begins and where the last one ends */
struct bytes { uint8_t s[70000]; size_t n, begins[MOST_RECORDS + 1]; int records; };

static struct bytes made, plan, spoilt, spoilt_plan, none, *into = &made;
static struct { uint16_t years[40]; size_t n; } ends; /* what every call is lent beside dossier and plan */
static uint64_t seed = 0x9e3779b97f4a7c15, given;

static uint64_t draw(uint64_t below)
{
    seed ^= seed << 13;
    seed ^= seed >> 7;
    seed ^= seed << 17;
    return below ? (seed >> 11) % below : 0;
}

static _Noreturn void fail(const char *what)
{
    printf("%s; seed %llu\n", what, (unsigned long long)given);
    exit(1);
}

static int stored(const char *path, const struct bytes *b)
{
    FILE *file = fopen(path, "wb");
    int whole = file && fwrite(b->s, 1, b->n, file) == b->n;
    return file && fclose(file) == 0 && whole;
}

/* the period ends as text, with commas between them */
static const struct bytes *ends_as_text(void)
{
    static struct bytes text;
    for (size_t k = 0; k < ends.n; k++)
        text.n += (size_t)sprintf((char *)text.s + text.n, "%s%d", k ? "," : "", ends.years[k]);
    text.s[text.n++] = '\n';
    return &text;
}

/* Fails with the bytes in files. */
static _Noreturn void differ(const struct bytes *d, const struct bytes *p, const char *what, uint32_t proved, uint32_t due, size_t room)
{
    int whole = stored("target/difference.dossier", d) && stored("target/difference.plan", p) &&
                stored("target/difference.ends", ends_as_text());
    printf("%s: proved %u, due %u, buffer of %zu, seed %llu; target/difference.dossier, .plan and .ends %s\n", what, proved, due, room,
           (unsigned long long)given, whole ? "have the bytes" : "could not be written");
    exit(1);
}

static uint64_t number(const uint8_t *s)
{
    uint64_t bits = 0;
    for (int k = 0; k < 8; k++)
        bits = bits << 8 | s[k];
    return bits;
}

static void put(uint64_t value, int bytes)
{
    while (bytes--)
        into->s[into->n++] = (uint8_t)(value >> (8 * bytes));
}

static void mark(const char *m)
{
    into->begins[into->records++] = into->n;
    into->s[into->n++] = (uint8_t)m[0];
    into->s[into->n++] = (uint8_t)m[1];
}

static void start(struct bytes *b)
{
    into = b;
    b->n = 0;
    b->records = 0;
}

static void end(void)
{
    mark("EN");
    into->begins[into->records] = into->n;
}

/* count numbers that add up to a total */
static void split(uint64_t total, int count, int bytes)
{
    for (int k = 0; k < count; k++) {
        uint64_t part = k == count - 1 ? total : draw(4) ? draw(total / 8 + 1) : 0;
        put(part, bytes);
        total -= part;
    }
}

/* of each area at most so many millionths turn into another class, mostly into non-forest; the rest stays */
static void stay_but(const uint64_t *areas, uint64_t most, int bytes)
{
    uint64_t cells[144] = { 0 };
    for (int i = 0; i < 12; i++) {
        uint64_t turned = areas[i] * draw(most + 1) / ONE;
        cells[13 * i] += areas[i] - turned;
        cells[12 * i + (int)(draw(4) ? 11 : draw(12))] += turned;
    }
    for (int k = 0; k < 144; k++)
        put(cells[k], bytes);
}

/* at most the share of a greatest quantity, and 1 at least */
static uint64_t quantity(uint64_t most, uint64_t share) { return draw((most > share ? most / share : 1) + 1); }

/* up to a limit, and often 0 or the limit itself */
static uint64_t up_to(uint64_t limit)
{
    uint64_t k = draw(6);
    return k == 0 ? 0 : k == 1 ? limit : draw(limit + 1);
}

/* crop, area, yield, share, ratios and contents of CR */
struct residue { uint64_t fields[8]; };

static const struct residue greatest_residue = { { 2, 10000, 10000, 10000, 500, 500, 10000, 10000 } };

static void put_residue(struct residue r)
{
    static const int widths[8] = { 1, 4, 4, 2, 2, 2, 2, 2 };
    mark("CR");
    for (int k = 0; k < 8; k++)
        put(r.fields[k], widths[k]);
}

/* a CR in range: area × yield up to the share of its greatest, or one of them 0 and the other any number */
static struct residue some_residue(uint64_t share)
{
    struct residue r = greatest_residue;
    uint64_t most = 100000000 / share, one = draw(8) ? 1 + draw(draw(2) ? most : 100) : 0, turned = draw(2);
    r.fields[0] = 1 + draw(2);
    r.fields[1 + turned] = one;
    r.fields[2 - turned] = one ? up_to(most / one) : draw((uint64_t)1 << 32);
    for (int k = 3; k < 8; k++)
        r.fields[k] = up_to(r.fields[k]);
    return r;
}

static void record(int kind, uint64_t share)
{
    static const char *marks[4] = { "FU", "VE", "NI", "LI" };
    if (kind == CR) {
        put_residue(some_residue(share));
        return;
    }
    mark(marks[kind]);
    put(1 + draw(3), 1);
    if (kind == VE) {
        put(quantity(1000, share), 4);
        put(draw(100000), 4);
        put(quantity(10000, share), 4);
    } else if (kind == NI) {
        put(1 + draw(2), 1);
        put(quantity(10000000000, share), 8);
        put(draw(10001), 2);
    } else
        put(quantity(1000000000000, share), 8);
}

/* whether the last record equals one before it, from a first one on */
static int repeated(int first)
{
    size_t last = into->begins[into->records - 1];
    for (int k = first; k < into->records - 1; k++)
        if (memcmp(into->s + into->begins[k], into->s + last, into->n - last) == 0)
            return 1;
    return 0;
}

/* so many records, no two of them equal, and up to two CR among them, seldom three; longest: two CR and otherwise VE */
static void run(int records, int longest, uint64_t share)
{
    int left = records, first = into->records, residues = longest ? 2 : draw(100) ? (int)draw(3) : 3;
    while (left) {
        int kind = (int)draw((uint64_t)left) < residues ? CR : longest ? VE : (int)draw(4);
        record(kind, share);
        if (repeated(first)) {
            into->n = into->begins[--into->records];
            continue;
        }
        residues -= kind == CR;
        left--;
    }
}

/* a year of the plan; records below 0: at random */
static void plan_year(int year, int records, int longest, uint64_t share)
{
    struct bytes *before = into;
    into = &plan;
    mark("PY");
    put((uint64_t)year, 2);
    run(records < 0 ? (int)draw(61) : records, longest, share);
    into = before;
}

static uint64_t stock(void)
{
    static const uint64_t edges[4] = { 0, 1, 49999, 50000 };
    return draw(4) ? draw(50001) : edges[draw(4)];
}

/* HD to MP; areas gets those of PA and DA */
static void opening(int option, int filed, int first, int years, int keeps, const uint64_t *total, uint64_t areas[2][12])
{
    static const uint64_t ones[12] = { ONE, ONE, ONE, ONE, ONE, ONE, ONE, ONE, ONE, ONE, ONE, ONE };
    mark("HD");
    put((uint64_t)option, 1);
    put((uint64_t)first, 2);
    put((uint64_t)years, 1);
    if (filed) {
        mark("ST");
        for (int i = 0; i < 12; i++)
            put(i < 11 ? stock() : 0, 2);
    }
    for (int r = 0; r < 2; r++) {
        mark(r ? "DA" : "PA");
        split(total[r], 12, 8);
        for (int i = 0; i < 12; i++)
            areas[r][i] = number(made.s + made.n - 96 + 8 * i);
    }
    if (option == 2) {
        mark("MP");
        if (keeps)
            stay_but(ones, ONE / 10, 4);
        for (int i = 0; !keeps && i < 12; i++)
            split(ONE, 12, 4);
    }
}

/* A dossier in made and its plan in plan. filed: with stocks or without; planned: each year by the plan, or no plan; these
 * two and records below 0: at random. longest: records as long as they can be. */
static void dossier(int option, int filed, int first, int years, int planned, int records, int longest)
{
    /* half of them lose little of their forest and have small records, so that totals of either sign come */
    static const uint64_t losses[4] = { 0, 2000, 50000, 300000 };
    uint64_t keeps = draw(2), most = 1 + draw(4), share = keeps ? 1000 : 1, small = draw(4) ? 1000000 : share, areas[2][12];
    uint64_t total[2] = { 1 + draw(!keeps && draw(2) ? 100 : 1000000000000), draw(draw(2) ? 100 : 1000000000001) };
    int lent = planned < 0 ? draw(4) > 0 : planned, in_ten = planned < 0 ? (int)draw(11) * (int)draw(2) : 10 * planned;
    start(&plan);
    start(&made);
    opening(option, filed < 0 ? draw(3) == 0 : filed, first, years, (int)keeps, total, areas);
    if (planned < 0 && lent && years < 19 && draw(2))
        plan_year(draw(2) ? 0 : first - 1, records, longest, small);
    for (int y = 0; y < years; y++) {
        int by_plan = (int)draw(10) < in_ten;
        mark("YR");
        put((uint64_t)(first + y), 2);
        put(1 + draw(365), 2);
        for (int r = 0; r < 2; r++) {
            mark(r ? "CD" : "CP");
            if (keeps)
                stay_but(areas[r], losses[by_plan ? 1 + draw(3) : draw(most)], 8);
            else
                split(total[r], 144, 8);
        }
        if (lent && (by_plan || draw(3) == 0))
            plan_year(first + y, records, longest, small);
        if (by_plan)
            mark("PL");
        run(by_plan ? 0 : records < 0 ? (int)draw(62) : records, longest, share);
    }
    end();
    into = &plan;
    if (planned < 0 && lent && years < 19 && draw(2))
        plan_year(draw(2) ? 65535 : first + years, records, longest, small);
    if (lent)
        end();
}

static unsigned counts[16], positive, of_either_sign, with_stocks, with_plan, with_residues, with_ends, paused, resumed;

static int64_t credited(const uint8_t *report, size_t y)
{
    return (int64_t)number(report + KH_AM004_AT_YEAR(y) + KH_AM004_AT_CREDITED);
}

/* counts the reports with tonnes, and those with years of either sign */
static void count_signs(const uint8_t *report, size_t n)
{
    int above = 0, below = 0;
    for (size_t y = 0; y < n; y++) {
        above |= credited(report, y) > 0;
        below |= credited(report, y) < 0;
    }
    positive += number(report + KH_AM004_AT_TONNES(n)) > 0;
    of_either_sign += above && below;
}

/* The answer of the proved reckoner; where no list is lent, or neither list nor plan, that of each call that takes none. */
static uint32_t proved_reckon(const struct bytes *d, const struct bytes *p, uint8_t result[BUFFER], size_t room)
{
    static uint8_t old[BUFFER], other[BUFFER];
    int others = ends.n ? 0 : p->n ? 1 : 2;
    memcpy(old, result, sizeof old);
    uint32_t a = kh_am004_reckon_periods(d->s, d->n, p->n ? p->s : NULL, p->n, ends.n ? ends.years : NULL, ends.n, result, room);
    for (int k = 0; k < others; k++) {
        memcpy(other, old, sizeof other);
        uint32_t b = k ? kh_am004_reckon(d->s, d->n, other, room) : kh_am004_reckon_plan(d->s, d->n, p->s, p->n, other, room);
        if (a != b || memcmp(result, other, sizeof other))
            differ(d, p, k ? "kh_am004_reckon and the call with neither" : "kh_am004_reckon_plan and the call with no list", a, b, room);
    }
    return a;
}

static uint32_t plainly(const struct bytes *d, const struct bytes *p, uint8_t *result, size_t room)
{
    return plain_reckon(d->s, d->n, p->s, p->n, ends.years, ends.n, result, room);
}

/* the bytes of the record that begins at a place; 0 where none does, or one is cut */
static size_t record_bytes(const struct bytes *b, size_t at)
{
    static const struct { char mark[3]; size_t bytes; } sizes[] = {
        { "VE", 15 }, { "NI", 14 }, { "FU", 11 }, { "LI", 11 }, { "CR", 21 }, { "YR", 6 }, { "CP", 1154 }, { "CD", 1154 },
        { "PL", 2 },  { "PY", 4 },  { "EN", 2 },  { "HD", 6 },  { "ST", 26 }, { "PA", 98 }, { "DA", 98 },   { "MP", 578 },
    };
    for (size_t k = 0; b->n - at >= 2 && k < sizeof sizes / sizeof *sizes; k++)
        if (memcmp(b->s + at, sizes[k].mark, 2) == 0)
            return sizes[k].bytes <= b->n - at ? sizes[k].bytes : 0;
    return 0;
}

static int has_residue(const struct bytes *b)
{
    size_t size;
    for (size_t at = 0; (size = record_bytes(b, at)); at += size)
        if (memcmp(b->s + at, "CR", 2) == 0)
            return 1;
    return 0;
}

static int first_year(const struct bytes *d) { return d->s[3] << 8 | d->s[4]; }

/* What an owner can rely on: after each end, all issued tonnes together equal the greatest of 0 and the whole tonnes of every
 * running total at an end so far. Counts the lists of several ends, and those with 0 after tonnes, and tonnes after that. */
static void rely(const struct bytes *d, const struct bytes *p, const uint8_t *report, size_t room)
{
    int64_t running = 0, greatest = 0, issued = 0;
    int pause = 0, more = 0;
    for (size_t k = 0, y = 0; k < ends.n; k++) {
        for (; first_year(d) + (int)y <= ends.years[k]; y++)
            running += credited(report, y);
        greatest = running / ONE > greatest ? running / ONE : greatest;
        int64_t tonnes = (int64_t)number(report + KH_AM004_AT_ISSUED(d->s[5], k));
        pause |= issued > 0 && tonnes == 0;
        more |= pause && tonnes > 0;
        issued += tonnes;
        if (issued != greatest)
            differ(d, p, "the tonnes issued up to an end", (uint32_t)issued, (uint32_t)greatest, room);
    }
    with_ends += ends.n > 1;
    paused += pause != 0;
    resumed += more != 0;
}

/* the same number and the same bytes, with the list that is lent */
static void same_with_ends(const struct bytes *d, const struct bytes *p, size_t room)
{
    static uint8_t proved[BUFFER], plain[BUFFER];
    for (size_t k = 0; k < sizeof proved; k++)
        proved[k] = plain[k] = (uint8_t)draw(256);
    uint32_t a = proved_reckon(d, p, proved, room), b = plainly(d, p, plain, room);
    if (a != b)
        differ(d, p, "the numbers differ", a, b, room);
    if (memcmp(proved, plain, sizeof proved))
        differ(d, p, "the buffers differ", a, b, room);
    counts[a]++;
    if (a == KH_AM004_ACCEPTED) {
        count_signs(proved, d->s[5]);
        rely(d, p, proved, room);
        with_stocks += memcmp(d->s + 6, "ST", 2) == 0;
        with_plan += plainly(d, &none, plain, room) == KH_AM004_REFUSED_PLANNED;
        with_residues += has_residue(d);
    }
}

static void list(int year) { ends.years[ends.n++] = (uint16_t)year; }

/* a list of period ends spoilt in some way */
static void spoil_ends(void)
{
    uint16_t *some = ends.years + draw(ends.n), last = ends.years[ends.n - 1];
    switch (draw(7)) {
    case 0: ends.n--; break;
    case 1: *some = (uint16_t)draw(65536); break;
    case 2: *some = (uint16_t)(*some + (draw(2) ? 1 : -1)); break;
    case 3: *some = ends.years[draw(ends.n)]; break;
    case 4: list(last + (int)draw(3) - 1); break;
    case 5: /* another first */
        memmove(ends.years + 1, ends.years, ends.n++ * sizeof *some);
        ends.years[0] = (uint16_t)(ends.years[1] - draw(3));
        break;
    default: /* more than twenty */
        while (ends.n < 21 + draw(4))
            list(last + (int)draw(2) * (int)ends.n);
    }
}

/* lends none, or a list of years of a dossier that is sound or spoilt */
static void some_ends(const struct bytes *d)
{
    int years = 1 + (d->s[5] + 31) % 32;
    uint64_t turn = draw(5), in_four = draw(5);
    for (int y = 0; turn && y < years; y++)
        if (y == years - 1 || draw(4) < in_four)
            list(first_year(d) + y);
    if (turn == 1)
        spoil_ends();
}

static void same(const struct bytes *d, const struct bytes *p, size_t room)
{
    some_ends(d);
    same_with_ends(d, p, room);
    ends.n = 0;
}

static size_t some_room(void) { return draw(2) ? KH_AM004_LONGEST_PERIODS : draw(1550); }

/* whether two records of a year, or of a planned one, are equal in mark and all fields */
static int has_equal(const struct bytes *b)
{
    static size_t year[sizeof b->s];
    size_t records = 0, size;
    for (size_t at = 0; (size = record_bytes(b, at)); at += size) {
        if (memcmp(b->s + at, "YR", 2) == 0 || memcmp(b->s + at, "PY", 2) == 0)
            records = 0;
        if (size < 11 || size > 21) /* no activity record */
            continue;
        for (size_t k = 0; k < records; k++)
            if (memcmp(b->s + year[k], b->s + at, size) == 0)
                return 1;
        year[records++] = at;
    }
    return 0;
}

static const char *const marks[15] = { "HD", "ST", "PA", "DA", "MP", "YR", "CP", "CD", "FU", "EN", "LI", "PL", "PY", "VE", "CR" };

/* makes room for n bytes at a place */
static void insert(struct bytes *b, size_t at, size_t n)
{
    memmove(b->s + at + n, b->s + at, b->n - at);
    b->n += n;
}

static void copy(struct bytes *b, const struct bytes *of)
{
    memcpy(b->s, of->s, of->n);
    b->n = of->n;
}

/* area and yield at their limit, above it, and with products that 32 bits do not hold; and whether they are in range */
static const struct { uint64_t area, yield; int sound; } products[] = {
    { 10000, 10000, 1 }, { 100000000, 1, 1 },  { 9999, 10001, 1 },  { 0, 4294967295, 1 }, { 4294967295, 0, 1 },
    { 10000, 10001, 0 }, { 100000001, 1, 0 },  { 9999, 10002, 0 },  { 1, 4294967295, 0 }, { 4294967295, 1, 0 },
    { 65536, 65536, 0 }, { 2, 2147483648, 0 }, { 6700417, 641, 0 }, { 4294967295, 4294967295, 0 },
};

/* a CR at a place, now and then with one or two fields at a limit, above it, or of any number */
static void insert_residue(struct bytes *b, size_t at)
{
    static struct bytes one;
    struct residue r = some_residue(1);
    for (uint64_t times = draw(3); times--;) {
        size_t k = draw(8), pair = draw(sizeof products / sizeof *products);
        r.fields[k] = draw(4) ? greatest_residue.fields[k] + draw(2) : draw(65536);
        if (k == 1 || k == 2) {
            r.fields[1] = products[pair].area;
            r.fields[2] = products[pair].yield;
        }
    }
    start(&one);
    put_residue(r);
    insert(b, at, one.n);
    memcpy(b->s + at, one.s, one.n);
}

/* a dossier spoilt in some way */
static void spoil_dossier(void)
{
    uint8_t *s = spoilt.s;
    size_t n = made.n, k;
    copy(&spoilt, &made);
    switch (draw(12)) {
    case 0: spoilt.n = draw(n + 1); break;
    case 1: s[n] = (uint8_t)draw(256); spoilt.n += 1 + draw(8); break;
    case 2: memcpy(s + draw(n - 1), marks[draw(15)], 2); break;
    case 3: s[draw(draw(2) ? 12 : n)] = (uint8_t)draw(256); break;
    case 4: memcpy(s + n - 2, marks[draw(15)], 2); spoilt.n += draw(8); break;
    case 5: /* stocks, one of them any number, before some record, mostly one of the first */
        k = made.begins[draw(4) ? draw(4) : draw((uint64_t)made.records)];
        insert(&spoilt, k, 26);
        memset(s + k, 0, 26);
        memcpy(s + k, "ST", 2);
        s[k + 2 + draw(24)] = (uint8_t)draw(256);
        break;
    case 6: /* PL before some record, and perhaps nothing after it */
        k = made.begins[draw((uint64_t)made.records)];
        insert(&spoilt, k, 2);
        memcpy(s + k, "PL", 2);
        if (draw(2))
            spoilt.n = k + 2 + draw(2);
        break;
    case 7:
    case 8: /* up to three CR before some record, and perhaps an end in the first */
        k = made.begins[draw((uint64_t)made.records)];
        for (uint64_t times = 1 + draw(3); times--;)
            insert_residue(&spoilt, k);
        if (draw(4) == 0)
            spoilt.n = k + draw(22);
        break;
    default: /* a record with a wrong byte, and then its end or up to three bytes more */
        k = draw(2) ? draw((uint64_t)made.records) : draw(8);
        spoilt.n = made.begins[k + 1] + draw(4) * draw(2);
        if (made.begins[k + 1] - made.begins[k] > 2)
            s[made.begins[k] + 2 + draw(made.begins[k + 1] - made.begins[k] - 2)] = (uint8_t)draw(256);
    }
}

static void spoil(void)
{
    do
        spoil_dossier();
    while (has_equal(&spoilt));
    same(&spoilt, &plan, some_room());
}

static int is_year(int k) { return memcmp(plan.s + plan.begins[k], "PY", 2) == 0; }

/* the first record of some year of the plan, and the one after its last; the same where it has none */
static void some_year(int *from, int *to)
{
    int k = plan.records > 1 ? (int)draw((uint64_t)plan.records - 1) : 0;
    *from = *to = k;
    if (plan.records < 2)
        return;
    while (!is_year(*from))
        --*from;
    do
        ++*to;
    while (*to < plan.records - 1 && !is_year(*to));
}

/* years of the plan in all, the later ones without records */
static void more_years(int years)
{
    int last = 0;
    for (int k = 0; k < plan.records; k++)
        if (is_year(k)) {
            last = plan.s[plan.begins[k] + 2] << 8 | plan.s[plan.begins[k] + 3];
            years--;
        }
    into = &spoilt_plan;
    into->n -= into->n ? 2 : 0;
    into->records = 0;
    while (years-- > 0) {
        mark("PY");
        put((uint64_t)++last, 2);
    }
    end();
}

/* a plan spoilt in some way */
static void spoil_lent(void)
{
    static uint8_t vehicles[15] = { 'V', 'E', 1 };
    struct bytes *b = &spoilt_plan;
    int from, to;
    some_year(&from, &to);
    size_t n = plan.n, at = plan.begins[from], after = plan.begins[to];
    copy(b, &plan);
    switch (draw(13)) {
    case 0: b->n = draw(n + 1); break;
    case 1: b->s[n] = (uint8_t)draw(256); b->n += 1 + draw(8); break;
    case 2: b->s[draw(n)] = (uint8_t)draw(256); break;
    case 3: memcpy(b->s + plan.begins[draw((uint64_t)plan.records)], marks[draw(15)], 2); break;
    case 4: b->s[at + 3] = (uint8_t)(b->s[at + 3] + draw(3) - 1); break;
    case 5: /* sixty records in some year, or one more */
        for (int k = to - from - 1 - (int)draw(2); from < to && k < 60; k++) {
            insert(b, at + 4, 15);
            vehicles[6] = (uint8_t)k;
            memcpy(b->s + at + 4, vehicles, 15);
        }
        break;
    case 6: /* some year taken out */
        memmove(b->s + at, b->s + after, n - after);
        b->n -= after - at;
        break;
    case 7: /* some year twice */
        insert(b, after, after - at);
        memcpy(b->s + after, plan.s + at, after - at);
        break;
    case 8: more_years(20 + (int)draw(2)); break;
    case 9: copy(b, draw(2) ? &made : &none); break;
    case 10:
    case 11: /* up to three CR at some place of some year */
        from += from < to ? 1 + (int)draw((uint64_t)(to - from)) : 0;
        for (uint64_t times = 1 + draw(3); times--;)
            insert_residue(b, plan.begins[from]);
        break;
    default: /* a record with a wrong byte, and perhaps its end */
        from = (int)draw((uint64_t)plan.records);
        b->s[plan.begins[from] + draw(16)] = (uint8_t)draw(256);
        if (draw(2))
            b->n = plan.begins[from + 1];
    }
}

static void spoil_plan(void)
{
    do
        spoil_lent();
    while (has_equal(&spoilt_plan));
    same(draw(8) ? &made : &plan, &spoilt_plan, some_room());
}

static void expect(uint32_t due, size_t room)
{
    static uint8_t result[BUFFER];
    uint32_t answer = proved_reckon(&made, &plan, result, room);
    if (answer != due)
        differ(&made, &plan, "an edge", answer, due, room);
    if (plainly(&made, &plan, result, room) != due)
        differ(&made, &plan, "an edge that plain C answers otherwise", answer, due, room);
}

/* records whose emissions are these: diesel as long as there is much, and urea, each time a little less than before */
static void emit(uint64_t grams)
{
    for (uint64_t k = 0; grams; k++) {
        uint64_t diesel = 3186300000000 - 318630 * k, urea = 700000000000 - k;
        int much = grams >= diesel;
        uint64_t part = much ? diesel : grams < urea ? grams : urea;
        mark(much ? "FU" : "LI");
        put(much ? 1 : 3, 1);
        put(much ? 1000000000000 - 100000 * k : part * 300 / 220, 8);
        grams -= part;
    }
}

/* planned emissions as great as they may be in every year, or in one of them a gram more */
static void at_limit(void)
{
    static uint8_t report[1312];
    int first = 2000 + (int)draw(201), years = 1 + (int)draw(20), over = draw(2) ? (int)draw((uint64_t)years) : years;
    dossier(1 + (int)draw(2), -1, first, years, 1, 0, 0);
    if (plainly(&made, &plan, report, sizeof report)) /* a year without other emissions */
        return;
    start(&plan);
    for (int y = 0; y < years; y++) {
        const uint8_t *figures = report + KH_AM004_AT_YEAR(y);
        uint64_t others = number(figures + KH_AM004_AT_PROJECT) + number(figures + KH_AM004_AT_DISPLACED);
        mark("PY");
        put((uint64_t)(first + y), 2);
        emit((others - 1) / 19 + (y == over));
    }
    end();
    same(&made, &plan, KH_AM004_LONGEST_PERIODS);
    expect(over < years ? 13 : 0, 1312);
}

/* another stock of a class in ST */
static void expect_stock(uint32_t due, int class, unsigned stock)
{
    made.s[8 + 2 * class] = (uint8_t)(stock >> 8);
    made.s[9 + 2 * class] = (uint8_t)stock;
    expect(due, 96);
}

/* the limits of the stocks, and bytes that end in ST and with it */
static void stock_edges(void)
{
    dossier(1, 1, 2020, 1, 0, 0, 0);
    for (int c = 0; c < 11; c++) {
        expect_stock(11, c, 50001);
        expect_stock(11, c, 65535);
        expect_stock(0, c, 50000);
    }
    expect_stock(11, 11, 1);
    expect_stock(11, 11, 50000);
    made.n = 31;
    expect(1, 96);
    made.n = 32;
    expect(11, 96);
    made.s[30] = made.s[31] = 0;
    expect(1, 96);
}

/* a planned year that is accepted without planned records */
static void planned_year(void)
{
    static uint8_t report[1312];
    do
        dossier(1, 0, 2020, 1, 1, 0, 0);
    while (plainly(&made, &plan, report, sizeof report));
}

/* bytes that end with PL, what may stand after it, and the forms of a plan */
static void plan_edges(void)
{
    planned_year();
    size_t n = made.n;
    expect(0, 96);
    expect(10, 95);
    made.n = n - 2;
    expect(1, 96);
    memcpy(made.s + n - 2, "PLEN", 4);
    made.n = n + 2;
    expect(2, 96);
    copy(&plan, &none);
    expect(13, 95);
    made.n = n - 2;
    expect(13, 96);
    made.n = n - 3;
    expect(1, 96);
    plan.s[plan.n++] = 'E';
    expect(12, 0);
    plan.s[plan.n++] = 'N';
    made.n = n - 2;
    expect(13, 96);
    plan.s[plan.n++] = 0;
    made.n = 0;
    expect(12, 96);
}

/* the least and the greatest year of a plan, years that do not rise, and its greatest numbers of years and of records */
static void plan_forms(void)
{
    static const struct { int years[2]; uint32_t due; } pairs[] = {
        { { 0, 65535 }, 0 }, { { 255, 256 }, 0 }, { { 0, 0 }, 12 }, { { 256, 255 }, 12 }, { { 65535, 65535 }, 12 },
    };
    dossier(1, 0, 2020, 1, 0, 0, 0);
    for (size_t k = 0; k < sizeof pairs / sizeof *pairs; k++) {
        start(&plan);
        plan_year(pairs[k].years[0], 0, 0, 1);
        plan_year(pairs[k].years[1], 0, 0, 1);
        end();
        expect(pairs[k].due, 96);
    }
    for (int years = 20; years <= 21; years++)
        for (int records = 60; records <= 61; records++) {
            start(&plan);
            for (int y = 0; y < years; y++)
                plan_year(y, records, 1, 1);
            end();
            expect(years == 20 && records == 60 ? 0 : 12, 96);
            if (years == 20 && records == 60 && plan.n != KH_AM004_LONGEST_PLAN)
                fail("no longest plan");
        }
}

/* a year's records, and EN where none is cut */
static struct bytes filed_run;

/* They follow made, which lacks EN, and then stand in a plan beside it, where every fault but 14 is 12. */
static void expect_records(uint32_t due)
{
    static const uint8_t year[4] = { 'P', 'Y', 2020 >> 8, 2020 & 255 };
    size_t n = made.n;
    memcpy(made.s + n, filed_run.s, filed_run.n);
    made.n = n + filed_run.n;
    expect(due, 96);
    memcpy(made.s + n, "EN", 2);
    made.n = n + 2;
    memcpy(plan.s, year, 4);
    memcpy(plan.s + 4, filed_run.s, filed_run.n);
    plan.n = 4 + filed_run.n;
    expect(due == 0 || due == 14 ? due : 12, 96);
    plan.n = 0;
    made.n = n;
}

static void expect_residue(uint32_t due, struct residue r)
{
    start(&filed_run);
    put_residue(r);
    end();
    expect_records(due);
}

/* the limits of each field of CR, and of area × yield */
static void residue_limits(void)
{
    struct residue r = greatest_residue;
    for (int k = 0; k < 8; k++, r = greatest_residue) {
        if (k == 1 || k == 2)
            continue;
        expect_residue(0, r);
        r.fields[k]++;
        expect_residue(8, r);
        r.fields[k] = k ? 65535 : 255;
        expect_residue(8, r);
        r.fields[k] = 0;
        expect_residue(k ? 0 : 8, r);
    }
    for (size_t k = 0; k < sizeof products / sizeof *products; k++) {
        r.fields[1] = products[k].area;
        r.fields[2] = products[k].yield;
        expect_residue(products[k].sound ? 0 : 8, r);
    }
}

/* what CR emits: nothing, the least, a whole number of grams, a little more, and the greatest by either crop */
static void residue_emissions(void)
{
    static const struct { struct residue r; uint64_t due; } cases[] = {
        { { { 1, 0, 10000, 10000, 500, 500, 10000, 10000 } }, 0 },
        { { { 1, 1, 1, 1, 1, 0, 1, 0 } }, 1 },
        { { { 1, 100, 10000, 1, 100, 1, 10000, 0 } }, 573650 },
        { { { 1, 100, 10000, 1, 100, 1, 10000, 1 } }, 573651 },
        { { { 1, 10000, 10000, 10000, 500, 500, 10000, 10000 } }, 5736500000000 },
        { { { 2, 10000, 10000, 10000, 500, 500, 10000, 10000 } }, 2458500000000 },
    };
    static uint8_t report[BUFFER];
    size_t n = made.n;
    for (size_t k = 0; k < sizeof cases / sizeof *cases; k++, made.n = n) {
        start(&made);
        made.n = n;
        put_residue(cases[k].r);
        end();
        expect(0, 96);
        proved_reckon(&made, &plan, report, 96);
        if (number(report + KH_AM004_AT_ACTIVITY) != cases[k].due)
            fail("the emissions of a CR");
    }
}

/* two CR, one field apart or equal; and a third, which its mark decides */
static void residue_runs(void)
{
    static const uint64_t shares[3] = { 2, 0, 10001 }; /* another one, that of the first, one out of range */
    struct residue r = greatest_residue;
    for (int k = 0; k <= 8; k++, r = greatest_residue) {
        start(&filed_run);
        put_residue(r);
        if (k < 8)
            r.fields[k]--;
        put_residue(r);
        end();
        expect_records(k < 8 ? 0 : 14);
        for (filed_run.n = 41; filed_run.n >= 21; filed_run.n--) /* the second cut */
            expect_records(1);
    }
    for (int k = 0; k < 3; k++) {
        start(&filed_run);
        for (int j = 0; j < 3; j++) {
            r.fields[3] = j < 2 ? (uint64_t)j : shares[k];
            put_residue(r);
        }
        end();
        for (; filed_run.n >= 44; filed_run.n--) /* whole, and cut down to its mark */
            expect_records(9);
        expect_records(1);
    }
}

/* CR before and after VE, sixty in all or one more */
static void residue_counts(void)
{
    struct residue r = greatest_residue;
    for (int total = 60; total <= 61; total++)
        for (int residues = 1; residues <= 2; residues++)
            for (int before = 0; before <= residues; before++) {
                start(&filed_run);
                for (int k = 0, j = 0; k < total; k++) {
                    if (k < before || k >= total - residues + before) {
                        r.fields[3] = (uint64_t)j++;
                        put_residue(r);
                        continue;
                    }
                    mark("VE");
                    put(1, 1);
                    put((uint64_t)k, 4);
                    put(0, 8);
                }
                end();
                expect_records(total == 60 ? 0 : 9);
            }
}

/* CR in a dossier of one year, and in a plan (#106) */
static void residue_edges(void)
{
    dossier(1, 0, 2020, 1, 0, 0, 0);
    made.n -= 2;
    residue_limits();
    residue_emissions();
    residue_runs();
    residue_counts();
}

/* lists beside a dossier of 2020 to 2022; 0 is no year */
static const struct { uint16_t years[4]; uint32_t due; } lists[] = {
    { { 0 }, 0 },
    { { 2022 }, 0 },
    { { 2020, 2022 }, 0 },
    { { 2020, 2021, 2022 }, 0 },
    { { 2021, 2020, 2022 }, 15 },       /* falling */
    { { 2022, 2021 }, 15 },
    { { 2020, 2022, 2021, 2022 }, 15 },
    { { 2020, 2020, 2022 }, 15 },       /* equal */
    { { 2022, 2022 }, 15 },
    { { 2019, 2022 }, 15 },             /* before the first year */
    { { 1, 2022 }, 15 },
    { { 2020, 2022, 2023 }, 15 },       /* after the last */
    { { 2023 }, 15 },
    { { 65535 }, 15 },
    { { 58887 }, 15 },                  /* 2022 in the other byte order */
    { { 2020, 2021 }, 15 },             /* the last missing */
    { { 2021 }, 15 },
};

static void lend(const uint16_t years[4])
{
    ends.n = 0;
    for (int k = 0; k < 4 && years[k]; k++)
        list(years[k]);
}

/* each fault of a list, and which number comes first: that of plan or dossier, 15, 10 */
static void list_edges(void)
{
    dossier(1, 0, 2020, 3, 0, 0, 0);
    for (size_t k = 0; k < sizeof lists / sizeof *lists; k++) {
        lend(lists[k].years);
        uint32_t due = lists[k].due;
        size_t room = 64 * 3 + 32 + 8 * ends.n;
        expect(due, room);
        expect(due ? due : 10, room - 1);
        expect(due ? due : 10, 0);
        same_with_ends(&made, &plan, room + draw(9));
        made.n--;
        expect(1, room);
        plan.s[plan.n++] = 'E';
        expect(12, room);
        plan.n = 0;
        made.n++;
    }
    ends.n = 0;
}

static void every_year(int first, int years)
{
    ends.n = 0;
    for (int y = 0; y < years; y++)
        list(first + y);
}

/* as many ends as there can be, and one more: after the last, before the first, or equal to one */
static void longest_list(void)
{
    dossier(2, 1, 2200, 20, 0, 0, 0);
    every_year(2200, 20);
    expect(10, KH_AM004_LONGEST_PERIODS - 1);
    expect(0, KH_AM004_LONGEST_PERIODS);
    same_with_ends(&made, &plan, KH_AM004_LONGEST_PERIODS + 1);
    list(2220);
    expect(15, BUFFER);
    ends.years[20] = 2219;
    expect(15, BUFFER);
    every_year(2199, 21);
    expect(15, BUFFER);
    ends.n = 0;
}

static uint64_t reduction(const uint8_t *report, int y) { return number(report + KH_AM004_AT_YEAR(y) + KH_AM004_AT_REDUCTION); }

/* whether every year has a reduction that the records of a year can take away, and not a small one; a negative one is above */
static int reducible(const uint8_t *report, int years)
{
    for (int y = 0; y < years; y++)
        if (reduction(report, y) < 100 * ONE || reduction(report, y) > 100000000000000)
            return 0;
    return 1;
}

/* a dossier of the years from 2020 on whose credited figures are these, by records that emit the rest */
static void credit(const int64_t *due, int years)
{
    static uint8_t report[BUFFER];
    do {
        dossier(1, 0, 2020, years, 0, 0, 0);
        plainly(&made, &plan, report, sizeof report);
    } while (!reducible(report, years));
    for (int y = years; y--;) {
        int64_t left = due[y] > 0 ? (5 * due[y] + 3) / 4 : due[y];
        size_t at = made.begins[3 + 3 * (y + 1)]; /* after HD, PA, DA, and the YR, CP and CD of each year */
        start(&filed_run);
        emit(reduction(report, y) - (uint64_t)left);
        insert(&made, at, filed_run.n);
        memcpy(made.s + at, filed_run.s, filed_run.n);
    }
}

/* running totals at whole tonnes, a gram less, fallen back, below 0 and passed again, and what is issued at every year */
static void issue_edges(void)
{
    static const int64_t due[] = { -1, 1000000, 1, 999999, 1, -1000001, 1000001, 1999999, -5000000, 5000000, -1, 1000001 };
    static const uint64_t issued[] = { 0, 0, 1, 0, 1, 0, 0, 1, 0, 0, 0, 1 };
    enum { YEARS = sizeof due / sizeof *due };
    static uint8_t report[BUFFER];
    credit(due, YEARS);
    every_year(2020, YEARS);
    expect(0, 64 * YEARS + 32 + 8 * YEARS);
    proved_reckon(&made, &plan, report, sizeof report);
    for (size_t k = 0; k < YEARS; k++) {
        uint64_t tonnes = number(report + KH_AM004_AT_ISSUED(YEARS, k));
        if (credited(report, k) != due[k] || tonnes != issued[k])
            differ(&made, &plan, "the tonnes issued at an end", (uint32_t)tonnes, (uint32_t)issued[k], sizeof report);
    }
    ends.n = 0;
    for (int k = 0; k < 100; k++)
        same(&made, &plan, KH_AM004_LONGEST_PERIODS);
}

/* document 01's unmarked edges */
static void edges(void)
{
    dossier(1, 0, 2020, 20, 0, 0, 0);
    expect(0, 1312);
    made.s[5] = 21;
    expect(3, 1312);
    dossier(2, 0, 2020, 1, 0, 0, 0);
    expect(10, 95);
    expect(0, 96);
    for (size_t at = 251; made.s[at]-- == 0; at--) /* the last cell of the first row, one less: 999,999 */
        ;
    expect(5, 1312);
    dossier(1, 0, 2100, 1, 0, 0, 0);
    expect(0, 96);
    made.s[206] = 366 >> 8;
    made.s[207] = 366 & 255;
    expect(6, 1312);
}

/* the first 65,536 bytes, which `yearsheet` reads and the host of dossier and plan, are answered as the whole input is */
static void long_inputs(void)
{
    static const char *const after[9] = { "EN", "YR", "FU", "VE", "NI", "LI", "CR", "PL", "??" };
    static uint8_t result[BUFFER];
    struct bytes *b = &spoilt;
    for (int k = 0; k < 2000; k++) {
        if (k % 100 == 0)
            dossier(2, 1, 2000, 20, k / 100 % 2, 60, 1);
        copy(b, &made);
        for (size_t at = made.n; at < sizeof b->s; at++)
            b->s[at] = (uint8_t)draw(256);
        memcpy(b->s + made.n - 2, after[k % 9], 2);
        if (draw(2))
            memcpy(b->s + made.n + draw(4), after[draw(9)], 2);
        if (draw(4) == 0)
            b->s[draw(made.n)] ^= (uint8_t)draw(256);
        b->n = 65537 + draw(4000);
        uint32_t whole = proved_reckon(b, &plan, result, 1312), whole_plan = proved_reckon(&made, b, result, 1312);
        b->n = 65536;
        uint32_t first = proved_reckon(b, &plan, result, 1312), first_plan = proved_reckon(&made, b, result, 1312);
        if (whole == 0 || whole != first)
            differ(b, &plan, "a long input and its first 65,536 bytes", whole, first, 1312);
        if (whole_plan != 12 || first_plan != 12)
            differ(&made, b, "a long plan and its first 65,536 bytes", whole_plan, first_plan, 1312);
    }
}

static void *on_thread(void *unused)
{
    static uint8_t result[KH_AM004_LONGEST_PERIODS];
    (void)unused;
    return kh_am004_reckon_periods(made.s, made.n, plan.s, plan.n, ends.years, ends.n, result, sizeof result) ? NULL : &made;
}

/* dossier and plan are accepted on a small stack, with a list of every year */
static void on_small_stack(void)
{
    void *answer = NULL;
    every_year(first_year(&made), made.s[5]);
    pthread_attr_t small;
    pthread_t thread;
    pthread_attr_init(&small);
    if (pthread_attr_setstacksize(&small, 65536) || pthread_create(&thread, &small, on_thread, NULL))
        fail("no thread with a stack of 64 KiB");
    pthread_join(thread, &answer);
    if (answer != &made)
        fail("a dossier is refused on a stack of 64 KiB");
    ends.n = 0;
}

/* twenty years by the longest plan */
static void longest_plan(void)
{
    static uint8_t report[1312];
    do
        dossier(2, 1, 2000, 20, 1, 60, 1);
    while (plainly(&made, &plan, report, sizeof report));
    if (plan.n != KH_AM004_LONGEST_PLAN)
        fail("no longest plan");
}

static void longest_dossier(void)
{
    dossier(2, 1, 2000, 20, 0, 60, 1);
    if (made.n != KH_AM004_LONGEST_DOSSIER)
        fail("no longest dossier");
}

static double seconds(uint32_t (*reckon)(const uint8_t *, size_t, const uint8_t *, size_t, const uint16_t *, size_t, uint8_t *, size_t))
{
    static uint8_t result[1312];
    struct timespec a, b;
    clock_gettime(CLOCK_MONOTONIC, &a);
    for (int k = 0; k < 20; k++)
        if (reckon(made.s, made.n, plan.s, plan.n, ends.years, ends.n, result, sizeof result))
            fail("a dossier is refused that was accepted");
    clock_gettime(CLOCK_MONOTONIC, &b);
    return (double)(b.tv_sec - a.tv_sec) + 1e-9 * (double)(b.tv_nsec - a.tv_nsec);
}

static void compare_times(void)
{
    double proved = 1, plain = 1;
    for (int k = 0; k < 100; k++) {
        double a = seconds(kh_am004_reckon_periods), b = seconds(plain_reckon);
        proved = a < proved ? a : proved;
        plain = b < plain ? b : plain;
    }
    printf("the longest dossier, on a stack of 64 KiB: accepted; best time, proved %.1f us, plain C %.1f us\n", 5e4 * proved, 5e4 * plain);
    if (4 * proved > plain) /* plain C compares each record with all before it, byte by byte */
        fail("the time comparison fails: the proved reckoner takes more than a quarter of the time of plain C");
}

static void compare_bytes(void)
{
    for (int k = 0; k < 3000; k++) {
        int first = 2000 + (int)draw(201);
        dossier(1 + (int)draw(2), -1, first, 1 + (int)draw(20), -1, -1, 0);
        same(&made, &plan, some_room());
        dossier(1 + (int)draw(2), -1, first, 1 + (int)draw(20), -1, (int)draw(5), 0);
        same(&made, &plan, KH_AM004_LONGEST_PERIODS);
        for (int s = 0; s < 10; s++)
            spoil();
        for (int s = 0; s < 5; s++)
            spoil_plan();
        at_limit();
    }
    printf("same number and same bytes; how often each number came:");
    for (int k = 0; k <= 15; k++)
        printf(" %u", counts[k]);
    printf("\nof the accepted ones %u had tonnes, %u years of either sign, %u stocks of their own, %u planned years, %u CR\n", positive,
           of_either_sign, with_stocks, with_plan, with_residues);
    printf("of their lists %u had several period ends, %u an issue of 0 after tonnes, %u tonnes after that\n", with_ends, paused, resumed);
    for (int k = 0; k <= 15; k++)
        if (!counts[k] && k != KH_AM004_REFUSED_REPEATED)
            fail("not every number came");
    if (counts[KH_AM004_REFUSED_REPEATED])
        fail("a year of the comparison has two equal records");
    if (positive < counts[0] / 5 || of_either_sign < counts[0] / 20 || with_stocks < counts[0] / 5 || with_plan < counts[0] / 5 ||
        with_residues < counts[0] / 5)
        fail("too few of the accepted dossiers had tonnes, years of either sign, stocks of their own, planned years, or CR");
    if (with_ends < counts[0] / 5 || paused < counts[0] / 20 || resumed < counts[0] / 100)
        fail("too few of the lists had several period ends, an issue of 0 after tonnes, or tonnes after that");
}

int main(int argc, char **argv)
{
    given = argc > 1 ? strtoull(argv[1], NULL, 10) : 0;
    seed += given;
    edges();
    stock_edges();
    plan_edges();
    plan_forms();
    residue_edges();
    list_edges();
    longest_list();
    issue_edges();
    long_inputs();
    compare_bytes();
    longest_plan();
    on_small_stack();
    longest_dossier();
    on_small_stack();
    if (argc <= 2) /* otherwise bytes only, no times */
        compare_times();
    return 0;
}
