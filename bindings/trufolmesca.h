/* Trufolmesca: the corners of a QR label on a photograph to a fraction of a pixel, and the pixels
   that they rest on; and the smoothing of a sherd's scan. Link libtrufolmesca.a or
   libtrufolmesca.so, which `make` builds; x86-64 Linux.

   The short way is a struct trufolmesca_request and the two calls over it, at the end;
   trufolmesca_word says a number in words. These are C of this header. The 25 calls before them are
   the library's, each proved to meet its contract.

   Calling it: a call needs less than 20 KB (20,480 bytes) of stack, takes no memory, keeps no state
   and is reentrant, so threads may call it at once on buffers of their own. A bool is exactly 0 or
   1. The photograph, the sheet and the copy are never one buffer, nor do a buffer and another list
   of the same call overlap. The processor's rounding mode, flush-to-zero and denormals-are-zero are
   as a program starts with them: to nearest, off and off.

   A call over a request needs up to 1 KB more. Where a program binds lazily, its dynamic linker
   works on the same stack when memcpy or memset is first called: with the static library and a
   stack that is scarce, link by `-z now`, as libtrufolmesca.so is linked.

   A list goes as pointer and length, and an answer into buffers that the caller lends. A call that
   refuses returns its number and writes zeros to places, counts, value, point, map or line; 0 is an
   answer. Numbers past the end of a list that is read are NaN, and values past the end of a buffer
   are left out, so that no length is undefined behaviour. Such a NaN is treated as any other: a
   refinement refuses it, 5 in the corners, 6 in a camera and 25 in settings, and a call that takes
   any floats computes with it: trufolmesca_square_to_quad of an empty list returns 0, and a map
   with NaNs.
   The calls that smooth a scan and those over cards differ: a refusal writes nothing, and a buffer
   that is too short is refused. Lists and buffers must not overlap a buffer of the same call, and a
   pointer is not null, also where its length is 0.

   Lists:
     corners  x0, y0 to x3, y3: top left, top right, bottom right, bottom left
     camera   fx, fy, cx, cy of the source, which is the photograph, then of the rectified picture,
              then the coefficients of the lens, whose kind goes beside the list as `lens`:
              0 no lens, and no coefficient is read; 1 Brown-Conrady: k1, k2, p1, p2, k3; 2 fisheye,
              as OpenCV has it: k1, k2, k3, k4. Any other kind is refused by 6
     settings the nine numbers that a refinement goes by, in the order of struct
              trufolmesca_settings, which has their ranges; TRUFOLMESCA_DEFAULT_SETTINGS are those
              of the calls without settings. A number that is out of its range, a NaN, or not whole
              where it must be is refused by 25, and so is a list of fewer than nine; what stands
              behind the ninth is not read
     modules  one byte a module by rows, 1 dark
     map      a11, a21, a31, a12, a22, a32, a13, a23, a33
     line     the centroid's x and y, then the direction's
     scan     heights in whole units, 0 to 65535, in the order in which they were scanned
     card     a request or an answer in bytes, field by field; docs/CARDS.md has the fields
   Buffers:
     places   as corners, in source pixels, which are the photograph's; of a call through a camera
              they are in rectified pixels, those of the picture that the camera rectifies to, and
              trufolmesca_rectified_to_source gives where each lies in the photograph
     counts   for each of the four edges probed, fit, dropped, valid; then four flags: 20 numbers
     point    x, y, weight; through a camera x and y are in rectified pixels
     sheet    a byte a pixel in rows of width bytes: 1 where the pixel was read, 0 where not
     copy     the photograph in rows of width bytes, with 0 for each pixel that was not read
 */
#ifndef TRUFOLMESCA_H
#define TRUFOLMESCA_H

#include <stdbool.h>
#include <stddef.h>
#include <stdint.h>

#define TRUFOLMESCA_VERSION_MAJOR 0
#define TRUFOLMESCA_VERSION_MINOR 1
#define TRUFOLMESCA_VERSION_PATCH 0
#define TRUFOLMESCA_VERSION "0.1.0"

#ifdef __cplusplus
extern "C" {
#endif

/* What a call returns. trufolmesca_word has a sentence for each. */
enum {
    /* An answer. */
    TRUFOLMESCA_ANSWER = 0,
    /* Width or height is 0 or above 16384. */
    TRUFOLMESCA_SIZE = 1,
    /* The stride is below the width or above 65535, or the bytes end before the last pixel. */
    TRUFOLMESCA_PHOTOGRAPH = 2,
    /* dim is not 2 to 177, the modules are fewer than dim x dim, or one is neither 0 nor 1. */
    TRUFOLMESCA_GRID = 3,
    /* A scale is not finite, or not above 0. */
    TRUFOLMESCA_SCALE = 4,
    /* A rough corner is not finite, or lies beyond 2 to the 20 after the division by the scale. */
    TRUFOLMESCA_CORNER = 5,
    /* A number of the camera is not finite, a focal length not above 0, or the lens of no kind. */
    TRUFOLMESCA_LENS = 6,
    /* The sheet or the copy is shorter than width x height. */
    TRUFOLMESCA_SHEET = 7,
    /* Four corners have no map: they do not span a quadrilateral. */
    TRUFOLMESCA_QUAD = 8,
    /* Fewer than two edges of the label were found in the first round. */
    TRUFOLMESCA_THIN = 9,
    /* The points of a line lie in one place. */
    TRUFOLMESCA_LINE = 10,
    /* The centroid, the direction or a residual of a line is not finite. */
    TRUFOLMESCA_OVERFLOW = 11,
    /* A job card is malformed, or the buffer for a result card is too short. */
    TRUFOLMESCA_CARD = 12,
    /* A line was asked for through fewer than two points. */
    TRUFOLMESCA_POINTS = 13,
    /* The coordinates and the weights of points differ in number. */
    TRUFOLMESCA_PAIRING = 14,
    /* A point or a weight is not finite. */
    TRUFOLMESCA_FINITE = 15,
    /* A weight is below 0, or their sum is not above 0. */
    TRUFOLMESCA_WEIGHT = 16,
    /* The place lies outside of the photograph: there is no sample. */
    TRUFOLMESCA_OUTSIDE = 17,
    /* Two lines are parallel. */
    TRUFOLMESCA_PARALLEL = 18,
    /* There is no edge point along the profile. */
    TRUFOLMESCA_PROFILE = 19,
    /* The rectified place has no counterpart in the photograph. */
    TRUFOLMESCA_PLACE = 20,
    /* A window is even, below 3 or above 31. */
    TRUFOLMESCA_WINDOW = 21,
    /* A smoothed scan does not fit where it is to be written. */
    TRUFOLMESCA_ROOM = 22,
    /* A result card is malformed, or of the other form. */
    TRUFOLMESCA_FORM = 23,
    /* A count of a result card is above 255. */
    TRUFOLMESCA_COUNT = 24,
    /* A setting is out of its range, not finite, or not whole where it must be. */
    TRUFOLMESCA_SETTINGS = 25
};

/* The bytes of a result card, and of one in the older form, whose counts have a byte each. */
enum { TRUFOLMESCA_RESULT_CARD_SIZE = 105, TRUFOLMESCA_OLDER_RESULT_CARD_SIZE = 93 };

/* The kind of a camera's lens: none; by Brown and Conrady, with k1, k2, p1, p2, k3; fisheye, with
   k1, k2, k3, k4, of which four zeros still are a lens, the equidistant one. Before the fisheye came
   this was a bool, and false and true still say the first two. */
#define TRUFOLMESCA_NO_LENS 0
#define TRUFOLMESCA_BROWN_CONRADY 1
#define TRUFOLMESCA_FISHEYE 2

/* How many numbers a list of settings has; and those that the calls without settings go by, which
   an array of doubles or a struct trufolmesca_settings may begin with. */
enum { TRUFOLMESCA_SETTINGS_SIZE = 9 };
#define TRUFOLMESCA_DEFAULT_SETTINGS {0.35, 0.7, 1.5, 64, 6, 12, 0.15, 2.0, 2}

/* What GCC and Clang are told of a call: that its number is not to be left unread, and that no
   pointer is null. They warn of a null pointer that they see; nothing looks for one when the call
   is made. They may also take a pointer for not null because it is passed, and drop a test that
   comes after the call: test what malloc gave before the call, and make none where it is null. */
#ifdef __GNUC__
#define TRUFOLMESCA_CALL __attribute__((warn_unused_result, nonnull))
#define TRUFOLMESCA_WRITING __attribute__((nonnull))
#define TRUFOLMESCA_OVER_REQUEST __attribute__((warn_unused_result, nonnull(1, 2)))
#else
#define TRUFOLMESCA_CALL
#define TRUFOLMESCA_WRITING
#define TRUFOLMESCA_OVER_REQUEST
#endif

/* ---- the library's calls */

/* A label's corners, refined on the photograph. The corners are in working pixels, of which there
   are sx and sy for each source pixel. 1 to 5, then 8, 9, and of an edge's line 10 or 11. */
TRUFOLMESCA_CALL uint32_t trufolmesca_refine_corners(
    const uint8_t *bytes, size_t bytes_len, uint32_t width, uint32_t height, uint32_t stride,
    const uint8_t *modules, size_t modules_len, uint32_t dim, double sx, double sy,
    const double *corners, size_t corners_len, bool inverted,
    double *places, size_t places_len, uint32_t *counts, size_t counts_len);

/* The same, seen through a camera: sx and sy are working pixels for each rectified pixel, and the
   places are in rectified pixels. Also 6, behind 1 to 5. */
TRUFOLMESCA_CALL uint32_t trufolmesca_refine_corners_mapped(
    const uint8_t *bytes, size_t bytes_len, uint32_t width, uint32_t height, uint32_t stride,
    const uint8_t *modules, size_t modules_len, uint32_t dim, double sx, double sy,
    const double *corners, size_t corners_len, bool inverted,
    const double *camera, size_t camera_len, uint32_t lens,
    double *places, size_t places_len, uint32_t *counts, size_t counts_len);

/* The same two, marked. Sheet and copy are width x height bytes or more: with less it is 7, behind
   1 to 6. Refused by 1 to 7 a call leaves both as they were, and writes zeros to places and counts
   alone; otherwise, refused or not, it writes the first width x height bytes of both and nothing
   behind them, also where places or counts are too short for the answer. Sheet and copy are of the
   photograph, also through a camera. */
TRUFOLMESCA_CALL uint32_t trufolmesca_refine_corners_marking(
    const uint8_t *bytes, size_t bytes_len, uint32_t width, uint32_t height, uint32_t stride,
    const uint8_t *modules, size_t modules_len, uint32_t dim, double sx, double sy,
    const double *corners, size_t corners_len, bool inverted,
    double *places, size_t places_len, uint32_t *counts, size_t counts_len,
    uint8_t *sheet, size_t sheet_len, uint8_t *copy, size_t copy_len);
TRUFOLMESCA_CALL uint32_t trufolmesca_refine_corners_mapped_marking(
    const uint8_t *bytes, size_t bytes_len, uint32_t width, uint32_t height, uint32_t stride,
    const uint8_t *modules, size_t modules_len, uint32_t dim, double sx, double sy,
    const double *corners, size_t corners_len, bool inverted,
    const double *camera, size_t camera_len, uint32_t lens,
    double *places, size_t places_len, uint32_t *counts, size_t counts_len,
    uint8_t *sheet, size_t sheet_len, uint8_t *copy, size_t copy_len);

/* The same four under settings, through a camera, or without one where its list is empty: then lens
   is not read. Also 25, behind 1 to 6 and before 7, which leaves sheet and copy as they were. */
TRUFOLMESCA_CALL uint32_t trufolmesca_refine_corners_with(
    const uint8_t *bytes, size_t bytes_len, uint32_t width, uint32_t height, uint32_t stride,
    const uint8_t *modules, size_t modules_len, uint32_t dim, double sx, double sy,
    const double *corners, size_t corners_len, bool inverted,
    const double *camera, size_t camera_len, uint32_t lens, const double *settings, size_t settings_len,
    double *places, size_t places_len, uint32_t *counts, size_t counts_len);
TRUFOLMESCA_CALL uint32_t trufolmesca_refine_corners_marking_with(
    const uint8_t *bytes, size_t bytes_len, uint32_t width, uint32_t height, uint32_t stride,
    const uint8_t *modules, size_t modules_len, uint32_t dim, double sx, double sy,
    const double *corners, size_t corners_len, bool inverted,
    const double *camera, size_t camera_len, uint32_t lens, const double *settings, size_t settings_len,
    double *places, size_t places_len, uint32_t *counts, size_t counts_len,
    uint8_t *sheet, size_t sheet_len, uint8_t *copy, size_t copy_len);

/* The sample at x, y. border: 0 rejects what lies outside, 1 clamps it, any other number answers it
   with the constant. 1, 2, 17. */
TRUFOLMESCA_CALL uint32_t trufolmesca_sample_bilinear(
    const uint8_t *bytes, size_t bytes_len, uint32_t width, uint32_t height, uint32_t stride,
    double x, double y, uint32_t border, uint8_t constant, double *value, size_t value_len);

/* Where a rectified place lies in the source picture, the photograph: for each corner that a call
   through a camera gave, with the same camera and lens. 6, 20. */
TRUFOLMESCA_CALL uint32_t trufolmesca_rectified_to_source(
    const double *camera, size_t camera_len, uint32_t lens, double x, double y, double *place, size_t place_len);

/* The map of the unit square to four corners, and of one quad to another. 8. */
TRUFOLMESCA_CALL uint32_t trufolmesca_square_to_quad(
    const double *corners, size_t corners_len, double *map, size_t map_len);
TRUFOLMESCA_CALL uint32_t trufolmesca_quad_to_quad(
    const double *from, size_t from_len, const double *to, size_t to_len, double *map, size_t map_len);

/* Where a map sends u, v; the map that scales; a map's inverse up to a scale; the inner map and then
   the outer. */
TRUFOLMESCA_WRITING void trufolmesca_map(
    const double *map, size_t map_len, double u, double v, double *place, size_t place_len);
TRUFOLMESCA_WRITING void trufolmesca_scaled(double sx, double sy, double *map, size_t map_len);
TRUFOLMESCA_WRITING void trufolmesca_inverse(
    const double *map, size_t map_len, double *out, size_t out_len);
TRUFOLMESCA_WRITING void trufolmesca_then(
    const double *inner, size_t inner_len, const double *outer, size_t outer_len, double *out, size_t out_len);

/* The line through weighted points. 13, 14, 15, 16, 10, 11. */
TRUFOLMESCA_CALL uint32_t trufolmesca_fit_line_tls_weighted(
    const double *xs, size_t xs_len, const double *ys, size_t ys_len, const double *weights, size_t weights_len,
    double *line, size_t line_len);

/* Where two lines cross, as a place on the first. 18. */
TRUFOLMESCA_CALL uint32_t trufolmesca_intersect_lines(
    const double *a, size_t a_len, const double *b, size_t b_len, double *place, size_t place_len);

/* An edge point along a normal, on the photograph as it is or through a camera, and then place and
   normal are in rectified pixels. 1, 2, with a camera 6, 19. */
TRUFOLMESCA_CALL uint32_t trufolmesca_localize_edge_point(
    const uint8_t *bytes, size_t bytes_len, uint32_t width, uint32_t height, uint32_t stride,
    double coarse_x, double coarse_y, double normal_x, double normal_y, double step, bool inverted, bool inward_differs,
    double *point, size_t point_len);
TRUFOLMESCA_CALL uint32_t trufolmesca_localize_edge_point_mapped(
    const uint8_t *bytes, size_t bytes_len, uint32_t width, uint32_t height, uint32_t stride,
    double coarse_x, double coarse_y, double normal_x, double normal_y, double step, bool inverted, bool inward_differs,
    const double *camera, size_t camera_len, uint32_t lens,
    double *point, size_t point_len);

/* The same two under settings, through a camera, or without one where its list is empty. All nine
   are tested, and the contrast floor alone counts. 1, 2, with a camera 6, 25, 19. */
TRUFOLMESCA_CALL uint32_t trufolmesca_localize_edge_point_with(
    const uint8_t *bytes, size_t bytes_len, uint32_t width, uint32_t height, uint32_t stride,
    double coarse_x, double coarse_y, double normal_x, double normal_y, double step, bool inverted, bool inward_differs,
    const double *camera, size_t camera_len, uint32_t lens, const double *settings, size_t settings_len,
    double *point, size_t point_len);

/* A scan, smoothed: each height becomes the mean, rounded down, of the `window` heights around it,
   or of those among them that the scan has; window is odd, from 3 to 31. To a second buffer, whose
   heights behind the scan's stay as they were: 21, 22. Or over the scan itself: 21. Both give the
   same heights, each worked out from the scan as it was. */
TRUFOLMESCA_CALL uint32_t trufolmesca_smooth_to(
    const uint16_t *scan, size_t scan_len, uint32_t window, uint16_t *out, size_t out_len);
TRUFOLMESCA_CALL uint32_t trufolmesca_smooth_over(uint16_t *scan, size_t scan_len, uint32_t window);

/* A job card run: the refinement that it asks for, without marking, and its answer as a result card
   at the front of a buffer of at least 105 bytes: 12 where the buffer is shorter or the job card is
   malformed, then as the refinement. */
TRUFOLMESCA_CALL uint32_t trufolmesca_run_card(
    const uint8_t *card, size_t card_len, uint8_t *out, size_t out_len);

/* A result card in the older form, of 93 bytes, made one of today's, of 105: 23, 12. And back: 23,
   then 24 where a count is above 255, then 12 where the buffer is too short. To and fro gives the
   first card's bytes again. */
TRUFOLMESCA_CALL uint32_t trufolmesca_widen_result_card(
    const uint8_t *card, size_t card_len, uint8_t *out, size_t out_len);
TRUFOLMESCA_CALL uint32_t trufolmesca_narrow_result_card(
    const uint8_t *card, size_t card_len, uint8_t *out, size_t out_len);

/* The square root, rounded once. */
double trufolmesca_sqrt(double x);

/* ---- a number in words */

/* What a number says, in a sentence for those who measure. */
static inline const char *trufolmesca_word(uint32_t number) {
    switch (number) {
    case TRUFOLMESCA_ANSWER: return "answered";
    case TRUFOLMESCA_SIZE: return "the picture is empty, or wider or higher than 16384 pixels";
    case TRUFOLMESCA_PHOTOGRAPH: return "the stride is wrong, or the pixels are fewer than width and height ask for";
    case TRUFOLMESCA_GRID: return "the grid is not a square of 2 to 177 rows of 0 and 1";
    case TRUFOLMESCA_SCALE: return "a scale is not a number above 0";
    case TRUFOLMESCA_CORNER: return "a rough corner is not a number, or lies far outside of any picture";
    case TRUFOLMESCA_LENS: return "the camera has a value that is not a number, or a focal length not above 0";
    case TRUFOLMESCA_SHEET: return "the sheet or the copy is smaller than the picture";
    case TRUFOLMESCA_QUAD: return "the rough corners are not the corners of a quadrilateral";
    case TRUFOLMESCA_THIN:
        return "fewer than two edges of the label were found: the rough corners may be more than "
               "a quarter of a module off or in another order, or dark and light exchanged";
    case TRUFOLMESCA_LINE: return "the points found on an edge all lie in one place";
    case TRUFOLMESCA_OVERFLOW: return "the arithmetic left the range of numbers";
    case TRUFOLMESCA_CARD: return "the job card is malformed, or there is no room for the result card";
    case TRUFOLMESCA_POINTS: return "a line needs two points";
    case TRUFOLMESCA_PAIRING: return "the points and their weights differ in number";
    case TRUFOLMESCA_FINITE: return "a point or a weight is not a number";
    case TRUFOLMESCA_WEIGHT: return "a weight is below 0, or all weights are 0";
    case TRUFOLMESCA_OUTSIDE: return "the place lies outside of the picture";
    case TRUFOLMESCA_PARALLEL: return "the two lines are parallel";
    case TRUFOLMESCA_PROFILE: return "there is no edge along this profile";
    case TRUFOLMESCA_PLACE: return "the place has no counterpart in the photograph";
    case TRUFOLMESCA_WINDOW: return "the window is not an odd number from 3 to 31";
    case TRUFOLMESCA_ROOM: return "the smoothed scan does not fit where it is to be written";
    case TRUFOLMESCA_FORM: return "the result card is malformed, or of the other form";
    case TRUFOLMESCA_COUNT: return "a count is above 255, and the older form has no room for it";
    case TRUFOLMESCA_SETTINGS: return "a setting is out of its range or not finite";
    default: return "a number that this version does not know";
    }
}

/* ---- a refinement over a request */

/* A place in pixels, x to the right and y down. */
struct trufolmesca_place {
    double x, y;
};

/* A photograph: height rows of stride bytes, of which the first width are pixels. */
struct trufolmesca_photograph {
    const uint8_t *bytes;
    size_t bytes_len;
    uint32_t width, height, stride;
};

/* A label as it was read: dim rows of dim modules, a byte each, 1 dark. */
struct trufolmesca_label {
    const uint8_t *modules;
    size_t modules_len;
    uint32_t dim;
};

/* Focal lengths and principal point of a camera, in pixels. */
struct trufolmesca_intrinsics {
    double fx, fy, cx, cy;
};

/* The camera of the photograph (source), that of the picture it is rectified to, and the lens: its
   kind, as TRUFOLMESCA_FISHEYE, and its coefficients, of which those that the kind has count. */
struct trufolmesca_camera {
    struct trufolmesca_intrinsics source, rectified;
    uint32_t lens;
    double k1, k2, p1, p2, k3, k4;
};

/* The numbers that a refinement goes by, in the order of the list `settings`. Both ends of a range
   belong to it; the default stands in brackets. */
struct trufolmesca_settings {
    /* Where in each dark module at the label's rim its two probes stand: 0 to 1 (0.35 and 0.7). */
    double probe_fraction_first, probe_fraction_second;
    /* The modules without probes at each end of an edge: 1 to 10 (1.5). */
    double edge_margin_modules;
    /* The most probes of an edge, 1 to 354 (64); and the least points of its line, 2 to 354 (6). */
    uint32_t max_points_per_edge, min_edge_points;
    /* By how many grey levels dark and light differ at least where a probe finds its point: 1 to
       255 (12). */
    uint32_t contrast_floor;
    /* A point is an outlier where its distance from the line is above so many modules, 0 to 100
       (0.15), and above so many times the median distance, 0 to 100 (2). */
    double outlier_floor_modules, outlier_median_multiplier;
    /* The rounds, each from the corners of the last: 1 to 4 (2). */
    uint32_t rounds;
};

/* What is asked: the rough corners (top left, top right, bottom right, bottom left) are in working
   pixels, of which there are sx and sy for each pixel of the photograph, or with a camera for each
   rectified pixel: 1 and 1 where the corners are of the photograph itself. A request that begins as
   zeros has neither, and is refused until both are set. camera is null where there is none, settings
   where they are the defaults. */
struct trufolmesca_request {
    struct trufolmesca_photograph photograph;
    struct trufolmesca_label label;
    double sx, sy;
    struct trufolmesca_place corners[4];
    bool inverted;
    const struct trufolmesca_camera *camera;
    const struct trufolmesca_settings *settings;
};

/* What is counted of an edge: points probed, points in its line, points dropped as outliers, and
   whether it has a line. */
struct trufolmesca_edge {
    uint32_t probed, fit, dropped;
    bool valid;
};

/* An answer: the corners in pixels of the photograph, or with a camera in rectified pixels; the
   edges from the top clockwise; and whether each corner was refined. All zeros of a refusal. */
struct trufolmesca_answer {
    struct trufolmesca_place places[4];
    struct trufolmesca_edge edges[4];
    bool refined[4];
};

/* A request as the lists of the library's calls. */
struct trufolmesca_lists {
    const uint8_t *bytes, *modules;
    size_t bytes_len, modules_len;
    double corners[8], camera[13], settings[TRUFOLMESCA_SETTINGS_SIZE];
    size_t camera_len;
    uint32_t lens;
};

/* A camera as the list of its thirteen numbers, which trufolmesca_rectified_to_source takes too;
   the last of a fisheye's is 0, and is not read. */
static inline void trufolmesca_camera_list(const struct trufolmesca_camera *camera, double list[13]) {
    const struct trufolmesca_intrinsics both[2] = {camera->source, camera->rectified};
    const bool fisheye = camera->lens == TRUFOLMESCA_FISHEYE;
    int i;
    for (i = 0; i < 2; ++i) {
        list[4 * i] = both[i].fx;
        list[4 * i + 1] = both[i].fy;
        list[4 * i + 2] = both[i].cx;
        list[4 * i + 3] = both[i].cy;
    }
    list[8] = camera->k1;
    list[9] = camera->k2;
    list[10] = fisheye ? camera->k3 : camera->p1;
    list[11] = fisheye ? camera->k4 : camera->p2;
    list[12] = fisheye ? 0.0 : camera->k3;
}

/* Settings as the list of their nine numbers. */
static inline void trufolmesca_settings_list(
    const struct trufolmesca_settings *settings, double list[TRUFOLMESCA_SETTINGS_SIZE]) {
    list[0] = settings->probe_fraction_first;
    list[1] = settings->probe_fraction_second;
    list[2] = settings->edge_margin_modules;
    list[3] = settings->max_points_per_edge;
    list[4] = settings->min_edge_points;
    list[5] = settings->contrast_floor;
    list[6] = settings->outlier_floor_modules;
    list[7] = settings->outlier_median_multiplier;
    list[8] = settings->rounds;
}

/* The lists of a request: of a null pointer an empty one, and without settings theirs is not
   written. */
static inline void trufolmesca_lists_of(const struct trufolmesca_request *request, struct trufolmesca_lists *lists) {
    static const uint8_t none = 0;
    const struct trufolmesca_photograph photograph = request->photograph;
    const struct trufolmesca_label label = request->label;
    int i;
    lists->bytes = photograph.bytes ? photograph.bytes : &none;
    lists->bytes_len = photograph.bytes ? photograph.bytes_len : 0;
    lists->modules = label.modules ? label.modules : &none;
    lists->modules_len = label.modules ? label.modules_len : 0;
    for (i = 0; i < 4; ++i) {
        lists->corners[2 * i] = request->corners[i].x;
        lists->corners[2 * i + 1] = request->corners[i].y;
    }
    lists->lens = request->camera ? request->camera->lens : TRUFOLMESCA_NO_LENS;
    lists->camera_len = request->camera ? 13 : 0;
    for (i = 0; i < 13; ++i) lists->camera[i] = 0.0;
    if (request->camera) trufolmesca_camera_list(request->camera, lists->camera);
    if (request->settings) trufolmesca_settings_list(request->settings, lists->settings);
}

/* An answer, from the buffers that one of the library's calls has written. */
static inline void trufolmesca_answer_of(
    const double places[8], const uint32_t counts[20], struct trufolmesca_answer *answer) {
    int i;
    for (i = 0; i < 4; ++i) {
        answer->places[i].x = places[2 * i];
        answer->places[i].y = places[2 * i + 1];
        answer->edges[i].probed = counts[4 * i];
        answer->edges[i].fit = counts[4 * i + 1];
        answer->edges[i].dropped = counts[4 * i + 2];
        answer->edges[i].valid = counts[4 * i + 3] != 0;
        answer->refined[i] = counts[16 + i] != 0;
    }
}

/* The arguments by which all six refinement calls begin, and those behind them under settings. */
#define TRUFOLMESCA_ASKED \
    l.bytes, l.bytes_len, request->photograph.width, request->photograph.height, request->photograph.stride, l.modules, \
        l.modules_len, request->label.dim, request->sx, request->sy, l.corners, 8, request->inverted
#define TRUFOLMESCA_GIVEN l.camera, l.camera_len, l.lens, l.settings, TRUFOLMESCA_SETTINGS_SIZE

/* trufolmesca_refine_corners over a request, or with a camera trufolmesca_refine_corners_mapped, or
   with settings trufolmesca_refine_corners_with. A null pointer to bytes or modules is an empty
   list: 2 or 3. */
TRUFOLMESCA_OVER_REQUEST static inline uint32_t trufolmesca_refine(
    const struct trufolmesca_request *request, struct trufolmesca_answer *answer) {
    struct trufolmesca_lists l;
    double places[8];
    uint32_t counts[20], number;
    trufolmesca_lists_of(request, &l);
    if (request->settings)
        number = trufolmesca_refine_corners_with(TRUFOLMESCA_ASKED, TRUFOLMESCA_GIVEN, places, 8, counts, 20);
    else if (request->camera)
        number = trufolmesca_refine_corners_mapped(TRUFOLMESCA_ASKED, l.camera, 13, l.lens, places, 8, counts, 20);
    else
        number = trufolmesca_refine_corners(TRUFOLMESCA_ASKED, places, 8, counts, 20);
    trufolmesca_answer_of(places, counts, answer);
    return number;
}

/* The same, marked: sheet and copy are lent as to trufolmesca_refine_corners_marking. One that is
   null is too short, whatever its length: 7. */
TRUFOLMESCA_OVER_REQUEST static inline uint32_t trufolmesca_refine_marking(
    const struct trufolmesca_request *request, struct trufolmesca_answer *answer,
    uint8_t *sheet, size_t sheet_len, uint8_t *copy, size_t copy_len) {
    struct trufolmesca_lists l;
    uint8_t no_sheet = 0, no_copy = 0;
    uint8_t *s = sheet ? sheet : &no_sheet, *c = copy ? copy : &no_copy;
    const size_t s_len = sheet ? sheet_len : 0, c_len = copy ? copy_len : 0;
    double places[8];
    uint32_t counts[20], number;
    trufolmesca_lists_of(request, &l);
    if (request->settings)
        number = trufolmesca_refine_corners_marking_with(
            TRUFOLMESCA_ASKED, TRUFOLMESCA_GIVEN, places, 8, counts, 20, s, s_len, c, c_len);
    else if (request->camera)
        number = trufolmesca_refine_corners_mapped_marking(
            TRUFOLMESCA_ASKED, l.camera, 13, l.lens, places, 8, counts, 20, s, s_len, c, c_len);
    else
        number = trufolmesca_refine_corners_marking(TRUFOLMESCA_ASKED, places, 8, counts, 20, s, s_len, c, c_len);
    trufolmesca_answer_of(places, counts, answer);
    return number;
}

#ifdef __cplusplus
}
#endif

#undef TRUFOLMESCA_CALL
#undef TRUFOLMESCA_WRITING
#undef TRUFOLMESCA_OVER_REQUEST
#undef TRUFOLMESCA_ASKED
#undef TRUFOLMESCA_GIVEN

#endif
