/* Labels that are drawn, so that calls are answered and the deep code runs. */
#include "boundary.h"

#include <math.h>

struct scene scenes[SCENES];

/* Where a label lies: its top left corner, and the sides from it to the right and down. */
struct frame {
    double x, y, right[2], down[2];
};

/* Random modules whose border is mostly dark, or a dark block. */
static void draw_modules(struct scene *s, struct random *r, bool block) {
    for (uint32_t i = 0; i < s->dim * s->dim; ++i) {
        uint32_t row = i / s->dim, column = i % s->dim;
        bool border = row == 0 || column == 0 || row == s->dim - 1 || column == s->dim - 1;
        s->modules[i] = block || chance(r, border ? 80 : 50);
    }
}

/* How light the scene is at a place. */
static double light_at(const struct scene *s, const struct frame *f, double x, double y) {
    double det = f->right[0] * f->down[1] - f->right[1] * f->down[0];
    double u = ((x - f->x) * f->down[1] - (y - f->y) * f->down[0]) / det * s->dim;
    double v = (f->right[0] * (y - f->y) - f->right[1] * (x - f->x)) / det * s->dim;
    bool inside = u >= 0 && v >= 0 && u < s->dim && v < s->dim;
    bool dark = inside && s->modules[(uint32_t)v * s->dim + (uint32_t)u];
    return dark != s->inverted ? 40.0 : 210.0;
}

/* The photograph, blurred over two pixels, with a little noise. */
static void draw_pixels(struct scene *s, const struct frame *f, struct random *r) {
    enum { FINE = 6 };
    for (uint32_t i = 0; i < s->width * s->height; ++i) {
        uint32_t row = i / s->width, column = i % s->width;
        double sum = 0;
        for (int k = 0; k < FINE * FINE; ++k)
            sum += light_at(s, f, column - 1 + (2 * (k % FINE) + 1.0) / FINE, row - 1 + (2 * (k / FINE) + 1.0) / FINE);
        s->bytes[row * s->stride + column] = (uint8_t)(sum / (FINE * FINE) + between(r, 0, 3));
    }
    s->bytes_len = (size_t)s->stride * (s->height - 1) + s->width;
}

/* A label of so many modules of so many pixels, turned, in a picture with a margin of a module and two. */
static void draw_scene(struct scene *s, uint32_t dim, double module, double angle, uint32_t beyond, bool inverted, bool block) {
    struct random r = random_of(1207, dim);
    double side = dim * module, c = side * cos(angle), d = side * sin(angle);
    struct frame f = {2.5 * module + fmax(d, 0), 2.5 * module, {c, d}, {-d, c}};
    s->dim = dim;
    s->inverted = inverted;
    s->width = (uint32_t)(5 * module + c + fabs(d)) + 1;
    s->height = s->width + 3;
    s->stride = s->width + beyond;
    draw_modules(s, &r, block);
    draw_pixels(s, &f, &r);
    const double corners[8] = {f.x, f.y, f.x + c, f.y + d, f.x + c - d, f.y + d + c, f.x - d, f.y + c};
    for (int i = 0; i < 8; ++i) s->corners[i] = corners[i];
}

void draw_scenes(void) {
    draw_scene(&scenes[0], 9, 4.0, 0.1, 0, false, false);
    draw_scene(&scenes[1], 21, 3.0, 0.05, 17, false, false);
    draw_scene(&scenes[2], 11, 3.5, 0.15, 1, true, false);
    draw_scene(&scenes[BLOCK], 8, 4.5, 0.08, 5, false, true);
}
