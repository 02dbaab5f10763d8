/* The proved reckoner against the tuned one in C on a dossier file: both in one interleaved run, medians of many rounds.
 *
 *     bench DOSSIER [PLAN [ENDS]]          the times; ENDS are years with commas between them, - is no plan or no list
 *     bench DOSSIER PLAN ENDS proved       one call, or one of tuned, for counting instructions
 */
#define _POSIX_C_SOURCE 200809L
#include "kh_am004.h"
#include "plain.h"
#include <stdio.h>
#include <stdlib.h>
#include <string.h>
#include <time.h>

enum { ROUNDS = 401, CALLS = 20 };

static uint8_t dossier[1 << 17], plan[1 << 17], report[KH_AM004_LONGEST_PERIODS];
static uint16_t ends[KH_AM004_MOST_PERIODS];
static size_t length, plan_length, ends_length;

static uint32_t proved(void)
{
    if (ends_length)
        return kh_am004_reckon_periods(dossier, length, plan, plan_length, ends, ends_length, report, sizeof report);
    if (plan_length)
        return kh_am004_reckon_plan(dossier, length, plan, plan_length, report, sizeof report);
    return kh_am004_reckon(dossier, length, report, sizeof report);
}

static uint32_t tuned(void)
{
    return plain_reckon(dossier, length, plan, plan_length, ends, ends_length, report, sizeof report);
}

static double microseconds(uint32_t (*reckon)(void))
{
    struct timespec a, b;
    clock_gettime(CLOCK_MONOTONIC, &a);
    for (int k = 0; k < CALLS; k++)
        if (reckon())
            exit(1);
    clock_gettime(CLOCK_MONOTONIC, &b);
    return ((double)(b.tv_sec - a.tv_sec) * 1e6 + (double)(b.tv_nsec - a.tv_nsec) / 1e3) / CALLS;
}

static int rising(const void *a, const void *b)
{
    double x = *(const double *)a, y = *(const double *)b;
    return (x > y) - (x < y);
}

static double median(double times[ROUNDS])
{
    qsort(times, ROUNDS, sizeof *times, rising);
    return times[ROUNDS / 2];
}

static size_t load(const char *path, uint8_t *bytes)
{
    FILE *file = fopen(path, "rb");
    if (!file) {
        perror(path);
        exit(2);
    }
    size_t n = fread(bytes, 1, sizeof dossier, file);
    fclose(file);
    return n;
}

static void read_ends(char *text)
{
    for (char *year = strtok(text, ","); year && ends_length < KH_AM004_MOST_PERIODS; year = strtok(NULL, ","))
        ends[ends_length++] = (uint16_t)strtoul(year, NULL, 10);
}

static void compare(void)
{
    static double of_proved[ROUNDS], of_tuned[ROUNDS];
    for (int k = 0; k < ROUNDS; k++) {
        of_proved[k] = microseconds(proved);
        of_tuned[k] = microseconds(tuned);
    }
    double p = median(of_proved), t = median(of_tuned);
    printf("%zu bytes", length);
    if (plan_length)
        printf(" and a plan of %zu", plan_length);
    if (ends_length)
        printf(" and %zu period ends", ends_length);
    printf(": proved %.2f us, tuned C %.2f us, ratio %.2f\n", p, t, p / t);
}

int main(int argc, char **argv)
{
    if (argc < 2 || argc > 5)
        return 2;
    length = load(argv[1], dossier);
    if (argc > 2 && strcmp(argv[2], "-"))
        plan_length = load(argv[2], plan);
    if (argc > 3 && strcmp(argv[3], "-"))
        read_ends(argv[3]);
    if (argc == 5)
        return (int)(strcmp(argv[4], "proved") ? tuned : proved)();
    compare();
    return 0;
}
