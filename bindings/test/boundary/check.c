/* What must hold after a call, by the header's words. */
#include "boundary.h"

#include <math.h>
#include <string.h>

enum { COUNTED = 20 };

/* Whether each of so many bytes is this one. */
static bool all_are(const uint8_t *at, size_t n, uint8_t byte) {
    return n == 0 || (at[0] == byte && memcmp(at, at + 1, n - 1) == 0);
}

static size_t least(size_t a, size_t b) { return a < b ? a : b; }

static bool rim_is_kept(const struct job *job, const struct desk *desk, enum list list) {
    const uint8_t *at = desk->at[list];
    return all_are(desk->end == FRONT ? at + job->len[list] * element_sizes[list] : at - RIM, RIM, CANARY);
}

static bool input_is_kept(const struct job *job, const struct desk *desk, enum list list) {
    size_t size = job->len[list] * element_sizes[list];
    return size == 0 || memcmp(desk->at[list], job->contents[list], size) == 0;
}

/* Whether the first n elements of a buffer were written, with zeros by a refusal, and none behind them. */
static bool buffer_is_right(const struct job *job, const struct desk *desk, enum list list, size_t n, bool refused) {
    size_t element = element_sizes[list], written = least(n, job->len[list]);
    const uint8_t *at = desk->at[list];
    for (size_t i = 0; i < written; ++i)
        if (all_are(at + i * element, element, CANARY)) return false;
    if (refused && !all_are(at, written * element, 0)) return false;
    return all_are(at + written * element, (job->len[list] - written) * element, CANARY);
}

/* Whether each verdict and flag among the counts is 0 or 1. */
static bool flags_are_bits(const struct job *job, const struct desk *desk) {
    const uint32_t *counts = (const void *)desk->at[COUNTS];
    for (size_t i = 0; i < least(COUNTED, job->len[COUNTS]); ++i)
        if ((i % 4 == 3 || i >= 16) && counts[i] > 1) return false;
    return true;
}

/* What is wrong with sheet and copy: both stay behind 1 to 7 and 25; else the sheet has 0 and 1, the copy the pixels that have a 1. */
static const char *wrong_with_marks(const struct job *job, const struct desk *desk, uint32_t number) {
    const uint8_t *sheet = desk->at[SHEET], *copy = desk->at[COPY], *bytes = desk->at[BYTES];
    size_t area = (1 <= number && number <= 7) || number == 25 ? 0 : (size_t)job->width * job->height;
    if (area > job->len[SHEET] || area > job->len[COPY]) return "the marks were written though they do not fit";
    for (size_t i = 0; i < area; ++i) {
        size_t row = i / job->width, column = i % job->width;
        if (sheet[i] > 1) return "a byte of the sheet is neither 0 nor 1";
        if (copy[i] != (sheet[i] ? bytes[row * job->stride + column] : 0)) return "the copy does not show what the sheet marks";
    }
    if (!all_are(sheet + area, job->len[SHEET] - area, CANARY)) return "the sheet was written where it must stay";
    if (!all_are(copy + area, job->len[COPY] - area, CANARY)) return "the copy was written where it must stay";
    return NULL;
}

/* Whether a root is the processor's, which rounds once; of NaNs the bits are free. */
static bool root_is_right(const struct job *job, const struct desk *desk) {
    double x = job->x[0], root, expected = sqrt(x);
    memcpy(&root, desk->at[VALUES], sizeof root);
    if (isnan(expected)) return isnan(root);
    return memcmp(&root, &expected, sizeof root) == 0;
}

/* The height that a scan has at i once it is smoothed, worked out as the header says it. */
static uint16_t mean_around(const struct job *job, size_t n, size_t i) {
    size_t reach = job->window / 2, first = i < reach ? 0 : i - reach, end = least(i + reach + 1, n);
    uint32_t sum = 0;
    for (size_t k = first; k < end; ++k) sum += job->scan[k];
    return (uint16_t)(sum / (end - first));
}

/* Whether a scan was refused as the header says, or smoothed, and all behind it stayed. */
static bool scan_is_right(const struct job *job, const struct desk *desk, uint32_t number) {
    size_t n = job->len[job->call == SMOOTH_TO ? SCAN : HEIGHTS], room = job->len[HEIGHTS];
    bool good = job->window % 2 == 1 && job->window >= 3 && job->window <= 31;
    if (number != (!good ? 21 : room < n ? 22 : 0)) return false;
    const uint16_t *found = (const void *)desk->at[HEIGHTS];
    size_t written = number == 0 ? n : 0;
    for (size_t i = 0; i < written; ++i)
        if (found[i] != mean_around(job, n, i)) return false;
    if (job->call == SMOOTH_OVER) return number == 0 || memcmp(found, job->scan, n * sizeof *found) == 0;
    return all_are((const uint8_t *)(found + written), (room - written) * sizeof *found, CANARY);
}

/* ---- result cards */

/* The result card of an answer. */
static void write_card(uint8_t card[NEWER], const double places[8], const uint32_t counts[20]) {
    static const uint8_t heads[3][3] = {{16, 64, 0}, {19, 28, 0}, {18, 4, 0}};
    memcpy(card, heads[0], 3);
    memcpy(card + 3, places, 64);
    memcpy(card + 67, heads[1], 3);
    for (size_t e = 0; e < 4; ++e) {
        for (size_t k = 0; k < 6; ++k) card[70 + 7 * e + k] = (uint8_t)(counts[4 * e + k / 2] >> 8 * (k % 2));
        card[76 + 7 * e] = (uint8_t)counts[4 * e + 3];
        card[101 + e] = (uint8_t)counts[16 + e];
    }
    memcpy(card + 98, heads[2], 3);
}

/* The number of a job card, and its result card: the refinement's, where the card asks for the job's own request. */
static bool run_is_right(const struct job *job, const struct desk *desk, uint32_t number) {
    const uint8_t *found = desk->at[RESULT];
    size_t room = job->len[RESULT], written = number == 0 ? NEWER : 0;
    if (!all_are(found + written, room - written, CANARY)) return false;
    if (!job->whole || room < NEWER || job->len[CARD] > 65535) return job->whole ? number == 12 : true;
    double places[8];
    uint32_t counts[20];
    uint8_t card[NEWER];
    uint32_t expected = refined(job, places, counts);
    write_card(card, places, counts);
    return number == expected && memcmp(found, card, written) == 0;
}

/* Where the contents of the next field are, if its tag and length are these; null where not. */
static const uint8_t *next_field(const uint8_t **at, const uint8_t *end, uint8_t tag, size_t size) {
    const uint8_t *field = *at;
    if (!field || (size_t)(end - field) < 3 + size || field[0] != tag || field[1] != size || field[2] != 0) return *at = NULL;
    *at = field + 3 + size;
    return field + 3;
}

/* Whether a converter's number and card are those that the header tells. */
static bool converted_is_right(const struct job *job, const struct desk *desk, uint32_t number) {
    const uint8_t *at = desk->at[CARD], *end = at + job->len[CARD], *found = desk->at[RESULT];
    size_t wide = job->call == NARROW ? 2 : 1, other = 3 - wide, size = other == 2 ? NEWER : OLDER, room = job->len[RESULT];
    const uint8_t *corners = next_field(&at, end, 16, 64), *stats = next_field(&at, end, wide == 2 ? 19 : 17, 4 * (3 * wide + 1));
    const uint8_t *flags = next_field(&at, end, 18, 4);
    bool good = at == end && flags, small = true;
    uint32_t counts[20] = {0};
    for (size_t e = 0; good && e < 4; ++e) {
        const uint8_t *stat = stats + e * (3 * wide + 1);
        for (size_t k = 0; k < 3; ++k) counts[4 * e + k] = stat[k * wide] + (wide == 2 ? 256u * stat[k * wide + 1] : 0);
        for (size_t k = 0; k < 3; ++k) small = small && counts[4 * e + k] < 256;
        counts[4 * e + 3] = stat[3 * wide];
        counts[16 + e] = flags[e];
        good = stat[3 * wide] < 2 && flags[e] < 2;
    }
    if (number != (!good ? 23 : job->call == NARROW && !small ? 24 : room < size ? 12 : 0)) return false;
    size_t written = number == 0 ? size : 0;
    if (!all_are(found + written, room - written, CANARY)) return false;
    if (number) return true;
    double places[8];
    uint8_t card[NEWER];
    memcpy(places, corners, sizeof places);
    write_card(card, places, counts);
    if (job->call == WIDEN) return memcmp(found, card, NEWER) == 0;
    bool same = memcmp(found, card, 67) == 0 && found[67] == 17 && found[68] == 16 && found[69] == 0 && memcmp(found + 86, card + 98, 7) == 0;
    for (size_t i = 0; i < 16; ++i) same = same && found[70 + i] == counts[i];
    return same;
}

/* ---- settings */

/* Whether settings are taken: nine or more, the first nine each within its range, and whole where they must be. */
static bool settings_are_good(const double *settings, size_t n) {
    for (size_t i = 0; i < SETTINGS; ++i) {
        if (i >= n || !(ranges[i].least <= settings[i] && settings[i] <= ranges[i].most)) return false;
        if (ranges[i].whole && settings[i] != floor(settings[i])) return false;
    }
    return true;
}

/* Whether the buffers of a job hold what another call wrote. */
static bool wrote_the_same(const struct job *job, const struct desk *desk, const struct written *other) {
    const struct {
        enum list list;
        const void *at;
    } buffers[] = {{VALUES, other->values}, {COUNTS, other->counts}, {SHEET, other->sheet}, {COPY, other->copy}};
    for (size_t i = 0; i < sizeof buffers / sizeof *buffers; ++i) {
        enum list list = buffers[i].list;
        if (lends(job, list) && memcmp(desk->at[list], buffers[i].at, job->len[list] * element_sizes[list])) return false;
    }
    return true;
}

/* What is wrong with a call under settings, held against the one without: 1 to 6 come first, then 25, then 7; and under the defaults
   both leave the same. */
static const char *wrong_under_settings(const struct job *job, const struct desk *desk, uint32_t number) {
    static _Thread_local struct written other;
    const double *settings = (const void *)desk->at[SECOND];
    uint32_t without = call_without_settings(job, desk, &other);
    bool good = settings_are_good(settings, job->len[SECOND]), entered = without == 0 || without > 7;
    if (!good || !entered) {
        uint32_t expected = !good && (entered || without == 7) ? 25 : without;
        return number == expected ? NULL : "the checks are not in the order of the header";
    }
    if ((1 <= number && number <= 7) || number == 25) return "good settings are refused";
    if (memcmp(settings, defaults, sizeof defaults)) return NULL;
    bool same = number == without && wrote_the_same(job, desk, &other);
    return same ? NULL : "under the defaults it is not the call without settings";
}

const char *wrong_after(const struct job *job, const struct desk *desk, uint32_t number) {
    const struct kind *kind = &kinds[job->call];
    if (number >= NUMBERS || !(kind->numbers >> number & 1)) return "the number is none of this call's";
    for (int list = 0; list < LISTS; ++list) {
        if (!lends(job, (enum list)list)) continue;
        if (!rim_is_kept(job, desk, (enum list)list)) return "a byte beside a list was written";
        if (!is_buffer((enum list)list) && !input_is_kept(job, desk, (enum list)list)) return "a list that is read was changed";
    }
    if (job->call == RUN_CARD) return run_is_right(job, desk, number) ? NULL : "the result card is not the refinement's";
    if (lends(job, RESULT)) return converted_is_right(job, desk, number) ? NULL : "the result card is not converted as the header says";
    if (lends(job, HEIGHTS)) return scan_is_right(job, desk, number) ? NULL : "the scan is not smoothed as the header says";
    if (!buffer_is_right(job, desk, VALUES, kind->values, number != 0)) return "the values are not written as the header says";
    if (job->call == SQRT && !root_is_right(job, desk)) return "the root is not the processor's";
    const char *wrong = takes_settings(job) ? wrong_under_settings(job, desk, number) : NULL;
    if (wrong || !lends(job, COUNTS)) return wrong;
    if (!buffer_is_right(job, desk, COUNTS, COUNTED, number != 0)) return "the counts are not written as the header says";
    if (!flags_are_bits(job, desk)) return "a flag is neither 0 nor 1";
    return lends(job, SHEET) ? wrong_with_marks(job, desk, number) : NULL;
}

/* What differs between two desks on which the same job was done. */
const char *wrong_between(const struct job *job, const struct desk *one, const struct desk *other) {
    for (int list = VALUES; list < LISTS; ++list)
        if (lends(job, (enum list)list) && memcmp(one->at[list], other->at[list], job->len[list] * element_sizes[list]))
            return "the answer depends on where the lists lie";
    return NULL;
}

/* A hash (FNV-1a, eight bytes at a time) of what a call returned and wrote. */
uint64_t digest_of(const struct job *job, const struct desk *desk, uint32_t number) {
    uint64_t hash = 14695981039346656037u ^ number;
    for (int list = VALUES; list < LISTS; ++list) {
        size_t size = lends(job, (enum list)list) ? job->len[list] * element_sizes[list] : 0;
        for (size_t i = 0; i < size; i += 8) {
            uint64_t word = 0;
            memcpy(&word, desk->at[list] + i, least(8, size - i));
            hash = (hash ^ word) * 1099511628211u;
        }
    }
    return hash;
}
