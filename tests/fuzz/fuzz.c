/* Fuzzes the calls for C: a refusal leaves the buffer as it was, bytes beyond the report and beyond the buffer keep their
 * content, number and report are the plain reckoner's, and the calls that take no list, or neither list nor plan, are the
 * whole one with none.
 *
 * The input is a length of 16 bits, a plan of that length and a dossier. Where that length passes the longest plan's by more
 * than a record it is a dossier alone, as every file that begins with HD. Before either may stand a list of period ends: a
 * byte 255, their count in a byte, and each in 16 bits. */
#include "kh_am004.h"
#include "plain.h"
#include <stdlib.h>
#include <string.h>

int LLVMFuzzerTestOneInput(const uint8_t *data, size_t size);

struct input { const uint8_t *dossier, *plan; size_t dossier_len, plan_len, ends_len; uint16_t *ends; };

static void *room_for(size_t size)
{
    void *bytes = malloc(size);
    if (!bytes)
        abort();
    return bytes;
}

static size_t two_bytes(const uint8_t *data) { return (size_t)(data[0] << 8 | data[1]); }

/* takes the list into memory of just its size; how many bytes it took */
static size_t take_ends(const uint8_t *data, size_t size, struct input *in)
{
    size_t listed = size >= 2 && data[0] == 255 ? data[1] : 0;
    if (size < 2 + 2 * listed)
        listed = 0;
    in->ends_len = listed;
    in->ends = listed ? room_for(2 * listed) : NULL;
    for (size_t k = 0; k < listed; k++)
        in->ends[k] = (uint16_t)two_bytes(data + 2 + 2 * k);
    return listed ? 2 + 2 * listed : 0;
}

static struct input divided(const uint8_t *data, size_t size)
{
    struct input in;
    size_t taken = take_ends(data, size, &in);
    data += taken;
    size -= taken;
    size_t length = size < 2 ? SIZE_MAX : two_bytes(data), head = length > KH_AM004_LONGEST_PLAN + 21 ? 0 : 2;
    in.plan_len = head == 0 ? 0 : length > size - 2 ? size - 2 : length;
    in.plan = in.plan_len ? data + head : NULL;
    in.dossier = data + head + in.plan_len;
    in.dossier_len = size - head - in.plan_len;
    return in;
}

/* as is due after a number: nothing changed in a refusal, and the byte after the buffer never */
static int kept(uint32_t number, const uint8_t *result, const uint8_t *old, size_t room)
{
    return result[room] == old[room] && (number == KH_AM004_ACCEPTED || memcmp(result, old, room) == 0);
}

/* the whole call, the one without a list, or the one without list and plan */
static uint32_t call(const struct input *in, int which, uint8_t *result, size_t room)
{
    switch (which) {
    case 0: return kh_am004_reckon_periods(in->dossier, in->dossier_len, in->plan, in->plan_len, in->ends, in->ends_len, result, room);
    case 1: return kh_am004_reckon_plan(in->dossier, in->dossier_len, in->plan, in->plan_len, result, room);
    default: return kh_am004_reckon(in->dossier, in->dossier_len, result, room);
    }
}

int LLVMFuzzerTestOneInput(const uint8_t *data, size_t size)
{
    struct input in = divided(data, size);
    size_t room = size % 4 == 3 ? size / 4 % 1550 : KH_AM004_LONGEST_PERIODS;
    uint8_t *result = room_for(room + 1), *plain = room_for(room + 1), *old = room_for(room + 1);
    for (size_t k = 0; k <= room; k++)
        old[k] = (uint8_t)(k * 167 + size);
    for (int which = 0; which < 3; which++) {
        size_t plan_len = which < 2 ? in.plan_len : 0, ends_len = which < 1 ? in.ends_len : 0;
        memcpy(result, old, room + 1);
        memcpy(plain, old, room + 1);
        uint32_t number = call(&in, which, result, room);
        uint32_t due = plain_reckon(in.dossier, in.dossier_len, in.plan, plan_len, in.ends, ends_len, plain, room);
        if (number > KH_AM004_REFUSED_PERIODS || number != due || memcmp(result, plain, room + 1) || !kept(number, result, old, room))
            abort();
    }
    free(in.ends);
    free(result);
    free(plain);
    free(old);
    return 0;
}
