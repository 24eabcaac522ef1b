#include "scene.h"

#include <math.h>

/* A colour as luma, blue and red difference. */
struct colour { int part[3]; };

static const struct colour SKY = {{176, 142, 118}};
static const struct colour GROUND = {{92, 118, 136}};
static const struct colour WALL = {{128, 122, 132}};
static const struct colour STEEL = {{196, 92, 152}};
static const struct colour ROPE = {{48, 128, 128}};
static const struct colour LOAD = {{108, 112, 168}};

/* Noise of -3..3 that only the place, the plane and the picture decide. */
static int noise(unsigned x, unsigned y, unsigned plane, unsigned picture)
{
    uint32_t h = x * 2654435761u ^ y * 2246822519u ^ plane * 3266489917u ^ picture * 668265263u;
    h ^= h >> 15;
    h *= 2246822519u;
    h ^= h >> 13;
    return (int)(h % 7) - 3;
}

/* Distance of a place from the line between two points, in the units of the scene. */
static double from_line(double x, double y, double ax, double ay, double bx, double by)
{
    double dx = bx - ax, dy = by - ay;
    double t = ((x - ax) * dx + (y - ay) * dy) / (dx * dx + dy * dy);
    t = t < 0 ? 0 : t > 1 ? 1 : t;
    return hypot(x - ax - t * dx, y - ay - t * dy);
}

struct crane { double foot_x, foot_y, top_x, top_y, load_x, load_y; };

/* The boom turns to and fro in four seconds; the load hangs from its top and is lowered and raised. */
static struct crane crane_at(unsigned picture)
{
    const double second = picture / 15.0, whole = 6.283185307179586;
    double angle = 0.95 + 0.35 * sin(whole * second / 4.0);
    struct crane c;
    c.foot_x = 0.22;
    c.foot_y = 0.86;
    c.top_x = c.foot_x + 0.72 * cos(angle);
    c.top_y = c.foot_y - 0.72 * sin(angle);
    c.load_x = c.top_x + 0.02 * sin(whole * second / 1.3);
    c.load_y = c.top_y + 0.26 + 0.10 * sin(whole * second / 3.0);
    return c;
}

static struct colour colour_at(double x, double y, const struct crane *c)
{
    if (fabs(x - c->load_x) < 0.07 && fabs(y - c->load_y) < 0.05)
        return LOAD;
    if (from_line(x, y, c->top_x, c->top_y, c->load_x, c->load_y) < 0.006)
        return ROPE;
    if (from_line(x, y, c->foot_x, c->foot_y, c->top_x, c->top_y) < 0.022) {
        /* the boom's lattice */
        double along = hypot(x - c->foot_x, y - c->foot_y);
        return fmod(along, 0.06) < 0.015 ? ROPE : STEEL;
    }
    if (x > 0.72 && y > 0.38 && y < 0.80)
        return WALL;
    return y > 0.80 ? GROUND : SKY;
}

/* Bricks on the wall, gravel on the ground, a slope of light in the sky. */
static int texture(double x, double y, const struct colour *k)
{
    if (k->part[0] == WALL.part[0])
        return fmod(y, 0.05) < 0.012 || fmod(x + (fmod(y, 0.1) < 0.05 ? 0.04 : 0.0), 0.08) < 0.01 ? -26 : 0;
    if (k->part[0] == GROUND.part[0])
        return (int)(9.0 * sin(61.0 * x + 37.0 * y) * sin(23.0 * x - 71.0 * y));
    if (k->part[0] == SKY.part[0])
        return (int)(-30.0 * y);
    return 0;
}

void scene_draw(uint8_t *samples, size_t width, size_t height, enum scene_plane plane, enum scene_eye eye, unsigned picture)
{
    struct crane c = crane_at(picture);
    /* the turning eye goes to and fro over a fifth of the scene, at most 2.8 samples of 176 a picture */
    double over = eye == SCENE_STILL ? 0.0 : 0.1 * sin(picture * 0.16), down = eye == SCENE_STILL ? 0.0 : 0.04 * sin(picture * 0.11);
    for (size_t row = 0; row < height; row++)
        for (size_t column = 0; column < width; column++) {
            double x = ((double)column + 0.5) / (double)width + over, y = ((double)row + 0.5) / (double)height + down;
            struct colour k = colour_at(x, y, &c);
            int v = k.part[plane] + noise((unsigned)column, (unsigned)row, plane, picture);
            if (plane == SCENE_LUMA)
                v += texture(x, y, &k);
            samples[row * width + column] = (uint8_t)(v < 0 ? 0 : v > 255 ? 255 : v);
        }
}
