/* Compares the calls over a request with the library's own on the same label: request PICTURE GRID ROUGH prints each number, and ends
   with status 1 where an answer, a sheet or a copy differs. PICTURE is examples/label.pgm, or another of its size. */
#include <math.h>
#include <stdio.h>
#include <stdlib.h>
#include <string.h>

#include "trufolmesca.h"

enum { SIDE = 240, AREA = SIDE * SIDE, DIM = 21 };

/* What a call leaves: its number and answer, and sheet and copy where it marks. */
struct outcome {
    uint32_t number, counts[20];
    double places[8];
    uint8_t sheet[AREA], copy[AREA];
};

static uint8_t pixels[AREA], modules[DIM * DIM];
static struct trufolmesca_request request;
static double camera_list[13];
static const double *settings_list; /* of the library's own call; null where it goes by the defaults */

static FILE *opened(const char *path) {
    FILE *f = fopen(path, "rb");
    if (!f) exit(2);
    return f;
}

/* The example's picture, grid and rough corners, as a request. */
static void read_request(char **paths) {
    FILE *picture = opened(paths[0]), *grid = opened(paths[1]), *rough = opened(paths[2]);
    if (fseek(picture, -(long)AREA, SEEK_END) || fread(pixels, 1, AREA, picture) != AREA) exit(2);
    for (int i = 0; i < DIM * DIM; ++i)
        if (fscanf(grid, " %1hhu", &modules[i]) != 1) exit(2);
    for (int i = 0; i < 4; ++i)
        if (fscanf(rough, "%lf %lf", &request.corners[i].x, &request.corners[i].y) != 2) exit(2);
    fclose(picture), fclose(grid), fclose(rough);
    request.photograph = (struct trufolmesca_photograph){pixels, AREA, SIDE, SIDE, SIDE};
    request.label = (struct trufolmesca_label){modules, DIM * DIM, DIM};
    request.sx = request.sy = 1.0;
}

#define ASKED \
    p.bytes, p.bytes_len, p.width, p.height, p.stride, modules, DIM * DIM, DIM, request.sx, request.sy, q, 8, request.inverted
#define CAMERA camera_list, 13, request.camera->lens
#define GIVEN camera_list, request.camera ? 13 : 0, request.camera ? request.camera->lens : 77, settings_list, 9
#define ANSWER o->places, 8, o->counts, 20
#define MARKS o->sheet, AREA, o->copy, AREA

/* The library's own call for the request. */
static void run_long(struct outcome *o, bool marking) {
    const struct trufolmesca_photograph p = request.photograph;
    double q[8];
    for (int i = 0; i < 8; ++i) q[i] = i % 2 ? request.corners[i / 2].y : request.corners[i / 2].x;
    if (marking && settings_list)
        o->number = trufolmesca_refine_corners_marking_with(ASKED, GIVEN, ANSWER, MARKS);
    else if (settings_list)
        o->number = trufolmesca_refine_corners_with(ASKED, GIVEN, ANSWER);
    else if (marking && request.camera)
        o->number = trufolmesca_refine_corners_mapped_marking(ASKED, CAMERA, ANSWER, MARKS);
    else if (marking)
        o->number = trufolmesca_refine_corners_marking(ASKED, ANSWER, MARKS);
    else if (request.camera)
        o->number = trufolmesca_refine_corners_mapped(ASKED, CAMERA, ANSWER);
    else
        o->number = trufolmesca_refine_corners(ASKED, ANSWER);
}

/* The call over the request, its answer put as the library's own calls put it. */
static void run_request(struct outcome *o, bool marking) {
    struct trufolmesca_answer a;
    o->number = marking ? trufolmesca_refine_marking(&request, &a, o->sheet, AREA, o->copy, AREA) : trufolmesca_refine(&request, &a);
    for (int i = 0; i < 4; ++i) {
        const uint32_t counts[4] = {a.edges[i].probed, a.edges[i].fit, a.edges[i].dropped, a.edges[i].valid};
        memcpy(o->counts + 4 * i, counts, sizeof counts);
        o->counts[16 + i] = a.refined[i];
        o->places[2 * i] = a.places[i].x;
        o->places[2 * i + 1] = a.places[i].y;
    }
}

static int failed;

/* Both calls, plain and marking, must leave the same. */
static void compare(const char *what) {
    static struct outcome by_request, by_long;
    for (int marking = 0; marking < 2; ++marking) {
        memset(&by_request, 0, sizeof by_request);
        memset(&by_long, 0, sizeof by_long);
        run_request(&by_request, marking);
        run_long(&by_long, marking);
        bool same = !memcmp(&by_request, &by_long, sizeof by_long);
        printf("%s%s: %u%s\n", what, marking ? ", marking" : "", by_request.number, same ? "" : " DIFFERENT");
        failed |= !same;
    }
}

/* A null pointer is an empty list, whatever its length. */
static void compare_nulls(void) {
    struct trufolmesca_answer a;
    static uint8_t sheet[AREA];
    printf("no sheet: %u\n", trufolmesca_refine_marking(&request, &a, NULL, AREA, sheet, AREA));
    printf("no copy: %u\n", trufolmesca_refine_marking(&request, &a, sheet, AREA, NULL, AREA));
    request.label.modules = NULL;
    printf("no modules: %u\n", trufolmesca_refine(&request, &a));
    request.photograph.bytes = NULL;
    printf("no bytes: %u\n", trufolmesca_refine_marking(&request, &a, sheet, AREA, sheet, 0));
}

/* The numbers of a fisheye's list, where this file has the header's order for itself; the last is not read. */
static void list_fisheye(const struct trufolmesca_camera *c) {
    const double list[13] = {240, 250, 120, 110, 240, 250, 120, 110, c->k1, c->k2, c->k3, c->k4, NAN};
    memcpy(camera_list, list, sizeof list);
}

/* Settings on the request, the default ones held against the call without; in lists this file has the header's order for itself. */
static void compare_settings(struct trufolmesca_camera *camera) {
    struct trufolmesca_settings settings = TRUFOLMESCA_DEFAULT_SETTINGS;
    static const double others[9] = {0.25, 0.875, 2.5, 9, 3, 20, 0.0625, 1.75, 3};
    static const double five_rounds[9] = {0.25, 0.875, 2.5, 9, 3, 20, 0.0625, 1.75, 5};
    request.settings = &settings;
    compare("defaults");
    request.camera = camera;
    compare("defaults, fisheye");
    settings = (struct trufolmesca_settings){0.25, 0.875, 2.5, 9, 3, 20, 0.0625, 1.75, 3};
    settings_list = others;
    compare("settings, fisheye");
    request.camera = NULL;
    compare("settings");
    settings.rounds = 5;
    settings_list = five_rounds;
    compare("five rounds");
    request.settings = NULL;
    settings_list = NULL;
}

int main(int argc, char **argv) {
    if (argc != 4) return 2;
    read_request(argv + 1);
    compare("plain");
    request.inverted = true;
    compare("inverted");
    request.inverted = false;
    request.sx = 0.5;
    request.sy = 0.25;
    for (int i = 0; i < 4; ++i) request.corners[i].x *= 0.5, request.corners[i].y *= 0.25;
    compare("scaled");
    struct trufolmesca_camera camera = {{240, 250, 120, 110}, {240, 250, 120, 110}, TRUFOLMESCA_NO_LENS, -0.01, 0.002, -1e-4, 2e-4, 1e-3, 7};
    trufolmesca_camera_list(&camera, camera_list);
    request.camera = &camera;
    compare("camera");
    camera.lens = TRUFOLMESCA_BROWN_CONRADY;
    compare("lens");
    camera.lens = TRUFOLMESCA_FISHEYE;
    camera.k1 = 0.333, camera.k2 = 0.133, camera.k3 = 0.054, camera.k4 = 0.02;
    list_fisheye(&camera);
    compare("fisheye");
    camera.k4 = HUGE_VAL;
    list_fisheye(&camera);
    compare("fisheye without end");
    camera.lens = 3;
    trufolmesca_camera_list(&camera, camera_list);
    compare("lens 3");
    camera.lens = TRUFOLMESCA_FISHEYE;
    camera.k4 = 0.02;
    camera.rectified.fy = 0;
    trufolmesca_camera_list(&camera, camera_list);
    compare("no focal length");
    request.camera = NULL;
    camera.rectified.fy = 250;
    trufolmesca_camera_list(&camera, camera_list);
    compare_settings(&camera);
    compare_nulls();
    return failed;
}
