/* The 25 calls of trufolmesca.h: what each is lent and can return, and how a job is put to it. */
#include "boundary.h"

#include <string.h>

#include "trufolmesca.h"

#define BIT(n) (1u << (n))
#define PHOTOGRAPH_LISTS BIT(BYTES)
#define LABEL_LISTS (BIT(BYTES) | BIT(MODULES) | BIT(FIRST) | BIT(VALUES) | BIT(COUNTS))
#define MARK_LISTS (BIT(SHEET) | BIT(COPY))
#define CAMERA_LIST BIT(THIRD)
#define SETTINGS_LIST BIT(SECOND)

#define VIEW_NUMBERS (BIT(0) | BIT(1) | BIT(2))
#define LABEL_NUMBERS (VIEW_NUMBERS | BIT(3) | BIT(4) | BIT(5) | BIT(8) | BIT(9) | BIT(10) | BIT(11))
#define LINE_NUMBERS (BIT(0) | BIT(10) | BIT(11) | BIT(13) | BIT(14) | BIT(15) | BIT(16))

const struct kind kinds[CALLS] = {
    [REFINE] = {"refine_corners", LABEL_LISTS, LABEL_NUMBERS, 8, {8, 0, 0}},
    [REFINE_MAPPED] = {"refine_corners_mapped", LABEL_LISTS | CAMERA_LIST, LABEL_NUMBERS | BIT(6), 8, {8, 0, 13}},
    [REFINE_MARKING] = {"refine_corners_marking", LABEL_LISTS | MARK_LISTS, LABEL_NUMBERS | BIT(7), 8, {8, 0, 0}},
    [REFINE_MAPPED_MARKING] = {"refine_corners_mapped_marking", LABEL_LISTS | CAMERA_LIST | MARK_LISTS,
                               LABEL_NUMBERS | BIT(6) | BIT(7), 8, {8, 0, 13}},
    [SAMPLE] = {"sample_bilinear", PHOTOGRAPH_LISTS | BIT(VALUES), VIEW_NUMBERS | BIT(17), 1, {0, 0, 0}},
    [TO_SOURCE] = {"rectified_to_source", CAMERA_LIST | BIT(VALUES), BIT(0) | BIT(6) | BIT(20), 2, {0, 0, 13}},
    [SQUARE_TO_QUAD] = {"square_to_quad", BIT(FIRST) | BIT(VALUES), BIT(0) | BIT(8), 9, {8, 0, 0}},
    [QUAD_TO_QUAD] = {"quad_to_quad", BIT(FIRST) | BIT(SECOND) | BIT(VALUES), BIT(0) | BIT(8), 9, {8, 8, 0}},
    [MAP] = {"map", BIT(FIRST) | BIT(VALUES), BIT(0), 2, {9, 0, 0}},
    [SCALED] = {"scaled", BIT(VALUES), BIT(0), 9, {0, 0, 0}},
    [INVERSE] = {"inverse", BIT(FIRST) | BIT(VALUES), BIT(0), 9, {9, 0, 0}},
    [THEN] = {"then", BIT(FIRST) | BIT(SECOND) | BIT(VALUES), BIT(0), 9, {9, 9, 0}},
    [FIT_LINE] = {"fit_line_tls_weighted", BIT(FIRST) | BIT(SECOND) | BIT(THIRD) | BIT(VALUES), LINE_NUMBERS, 4, {0, 0, 0}},
    [INTERSECT] = {"intersect_lines", BIT(FIRST) | BIT(SECOND) | BIT(VALUES), BIT(0) | BIT(18), 2, {4, 4, 0}},
    [LOCALIZE] = {"localize_edge_point", PHOTOGRAPH_LISTS | BIT(VALUES), VIEW_NUMBERS | BIT(19), 3, {0, 0, 0}},
    [LOCALIZE_MAPPED] = {"localize_edge_point_mapped", PHOTOGRAPH_LISTS | CAMERA_LIST | BIT(VALUES), VIEW_NUMBERS | BIT(6) | BIT(19), 3,
                         {0, 0, 13}},
    [SQRT] = {"sqrt", BIT(VALUES), BIT(0), 1, {0, 0, 0}},
    [SMOOTH_TO] = {"smooth_to", BIT(SCAN) | BIT(HEIGHTS), BIT(0) | BIT(21) | BIT(22), 0, {0, 0, 0}},
    [SMOOTH_OVER] = {"smooth_over", BIT(HEIGHTS), BIT(0) | BIT(21), 0, {0, 0, 0}},
    [RUN_CARD] = {"run_card", BIT(CARD) | BIT(RESULT), LABEL_NUMBERS | BIT(6) | BIT(12), 0, {0, 0, 0}},
    [WIDEN] = {"widen_result_card", BIT(CARD) | BIT(RESULT), BIT(0) | BIT(12) | BIT(23), 0, {0, 0, 0}},
    [NARROW] = {"narrow_result_card", BIT(CARD) | BIT(RESULT), BIT(0) | BIT(12) | BIT(23) | BIT(24), 0, {0, 0, 0}},
    [REFINE_WITH] = {"refine_corners_with", LABEL_LISTS | CAMERA_LIST | SETTINGS_LIST, LABEL_NUMBERS | BIT(6) | BIT(25), 8,
                     {8, SETTINGS, 13}},
    [REFINE_MARKING_WITH] = {"refine_corners_marking_with", LABEL_LISTS | CAMERA_LIST | SETTINGS_LIST | MARK_LISTS,
                             LABEL_NUMBERS | BIT(6) | BIT(7) | BIT(25), 8, {8, SETTINGS, 13}},
    [LOCALIZE_WITH] = {"localize_edge_point_with", PHOTOGRAPH_LISTS | CAMERA_LIST | SETTINGS_LIST | BIT(VALUES),
                       VIEW_NUMBERS | BIT(6) | BIT(19) | BIT(25), 3, {0, SETTINGS, 13}},
};

/* A refinement can return 11, where a line's arithmetic overflows, but no input is known that gets there: the entry checks bound the
   corners, and no job of tools/judge did (docs/DIFFERENCES.md). So that one is not demanded. */
unsigned demanded(enum call call) { return kinds[call].numbers & ~(kinds[call].lists & BIT(COUNTS) || call == RUN_CARD ? BIT(11) : 0); }

const char *const list_names[LISTS] = {"bytes",    "modules", "the first list", "the second list", "the third list", "the scan",
                                       "the card", "values",  "counts",         "the sheet",       "the copy",       "the heights",
                                       "the result card"};
const size_t element_sizes[LISTS] = {1, 1, sizeof(double), sizeof(double), sizeof(double), sizeof(uint16_t),
                                     1, sizeof(double), sizeof(uint32_t), 1, 1, sizeof(uint16_t), 1};

#define LENT(type, list) (type *)(void *)d->at[list], j->len[list]
#define PHOTOGRAPH LENT(const uint8_t, BYTES), j->width, j->height, j->stride
#define LABEL PHOTOGRAPH, LENT(const uint8_t, MODULES), j->dim, j->x[0], j->x[1], LENT(const double, FIRST), j->flag[0]
#define RAY PHOTOGRAPH, j->x[0], j->x[1], j->x[2], j->x[3], j->x[4], j->flag[0], j->flag[1]
#define CAMERA LENT(const double, THIRD), j->lens
#define GIVEN CAMERA, LENT(const double, SECOND)
#define INTO LENT(double, VALUES)
#define ANSWER INTO, LENT(uint32_t, COUNTS)
#define MARKS LENT(uint8_t, SHEET), LENT(uint8_t, COPY)

/* The root goes into the buffer of values, so that it is compared as they are. */
static void put_root(const struct job *j, const struct desk *d) {
    double root = trufolmesca_sqrt(j->x[0]);
    memcpy(d->at[VALUES], &root, sizeof root);
}

/* Makes a job's call over the lists on a desk; 0 where it has no number to return. */
uint32_t make_call(const struct job *j, const struct desk *d) {
    switch (j->call) {
    case REFINE: return trufolmesca_refine_corners(LABEL, ANSWER);
    case REFINE_MAPPED: return trufolmesca_refine_corners_mapped(LABEL, CAMERA, ANSWER);
    case REFINE_MARKING: return trufolmesca_refine_corners_marking(LABEL, ANSWER, MARKS);
    case REFINE_MAPPED_MARKING: return trufolmesca_refine_corners_mapped_marking(LABEL, CAMERA, ANSWER, MARKS);
    case SAMPLE: return trufolmesca_sample_bilinear(PHOTOGRAPH, j->x[0], j->x[1], j->border, j->constant, INTO);
    case TO_SOURCE: return trufolmesca_rectified_to_source(CAMERA, j->x[0], j->x[1], INTO);
    case SQUARE_TO_QUAD: return trufolmesca_square_to_quad(LENT(const double, FIRST), INTO);
    case QUAD_TO_QUAD: return trufolmesca_quad_to_quad(LENT(const double, FIRST), LENT(const double, SECOND), INTO);
    case FIT_LINE:
        return trufolmesca_fit_line_tls_weighted(LENT(const double, FIRST), LENT(const double, SECOND), LENT(const double, THIRD), INTO);
    case INTERSECT: return trufolmesca_intersect_lines(LENT(const double, FIRST), LENT(const double, SECOND), INTO);
    case LOCALIZE: return trufolmesca_localize_edge_point(RAY, INTO);
    case LOCALIZE_MAPPED: return trufolmesca_localize_edge_point_mapped(RAY, CAMERA, INTO);
    case MAP: trufolmesca_map(LENT(const double, FIRST), j->x[0], j->x[1], INTO); return 0;
    case SCALED: trufolmesca_scaled(j->x[0], j->x[1], INTO); return 0;
    case INVERSE: trufolmesca_inverse(LENT(const double, FIRST), INTO); return 0;
    case THEN: trufolmesca_then(LENT(const double, FIRST), LENT(const double, SECOND), INTO); return 0;
    case SQRT: put_root(j, d); return 0;
    case SMOOTH_TO: return trufolmesca_smooth_to(LENT(const uint16_t, SCAN), j->window, LENT(uint16_t, HEIGHTS));
    case SMOOTH_OVER: return trufolmesca_smooth_over(LENT(uint16_t, HEIGHTS), j->window);
    case RUN_CARD: return trufolmesca_run_card(LENT(const uint8_t, CARD), LENT(uint8_t, RESULT));
    case WIDEN: return trufolmesca_widen_result_card(LENT(const uint8_t, CARD), LENT(uint8_t, RESULT));
    case NARROW: return trufolmesca_narrow_result_card(LENT(const uint8_t, CARD), LENT(uint8_t, RESULT));
    case REFINE_WITH: return trufolmesca_refine_corners_with(LABEL, GIVEN, ANSWER);
    case REFINE_MARKING_WITH: return trufolmesca_refine_corners_marking_with(LABEL, GIVEN, ANSWER, MARKS);
    case LOCALIZE_WITH: return trufolmesca_localize_edge_point_with(RAY, GIVEN, INTO);
    default: return 0;
    }
}

/* The refinement that a job card asks for, by the call for C. */
uint32_t refined(const struct job *j, double places[8], uint32_t counts[20]) {
    const uint8_t *bytes = j->contents[BYTES], *modules = j->contents[MODULES];
    if (j->mapped)
        return trufolmesca_refine_corners_mapped(bytes, j->len[BYTES], j->width, j->height, j->stride, modules, j->len[MODULES], j->dim, j->x[0],
                                                 j->x[1], j->floats[0], 8, j->flag[0], j->floats[2], 13, j->lens, places, 8, counts, 20);
    return trufolmesca_refine_corners(bytes, j->len[BYTES], j->width, j->height, j->stride, modules, j->len[MODULES], j->dim, j->x[0], j->x[1],
                                      j->floats[0], 8, j->flag[0], places, 8, counts, 20);
}

const double defaults[SETTINGS] = TRUFOLMESCA_DEFAULT_SETTINGS;
const struct range ranges[SETTINGS] = {{0, 1, false},   {0, 1, false},   {1, 10, false},  {1, 354, true}, {2, 354, true},
                                       {1, 255, true},  {0, 100, false}, {0, 100, false}, {1, 4, true}};

#define TO_VALUES to->values, j->len[VALUES]
#define TO_ANSWER TO_VALUES, to->counts, j->len[COUNTS]
#define TO_MARKS to->sheet, j->len[SHEET], to->copy, j->len[COPY]

/* The call that a job under settings would make without them: plain where its camera's list is empty, to buffers of the same lengths,
   which hold canaries before it. */
uint32_t call_without_settings(const struct job *j, const struct desk *d, struct written *to) {
    bool mapped = j->len[THIRD] > 0;
    memset(to, CANARY, sizeof *to);
    switch (j->call) {
    case REFINE_WITH:
        return mapped ? trufolmesca_refine_corners_mapped(LABEL, CAMERA, TO_ANSWER) : trufolmesca_refine_corners(LABEL, TO_ANSWER);
    case REFINE_MARKING_WITH:
        return mapped ? trufolmesca_refine_corners_mapped_marking(LABEL, CAMERA, TO_ANSWER, TO_MARKS)
                      : trufolmesca_refine_corners_marking(LABEL, TO_ANSWER, TO_MARKS);
    default:
        return mapped ? trufolmesca_localize_edge_point_mapped(RAY, CAMERA, TO_VALUES) : trufolmesca_localize_edge_point(RAY, TO_VALUES);
    }
}
