/* A crane on a building site, drawn from the time: boom and load move, walls and ground have texture, all has noise. The eye stands still,
 * or it turns and everything moves. */
#ifndef CABUNLIS_HOST_SCENE_H
#define CABUNLIS_HOST_SCENE_H

#include <stddef.h>
#include <stdint.h>

/* The planes of a picture: luma, and two of a quarter of its width and height. */
enum scene_plane { SCENE_LUMA, SCENE_BLUE, SCENE_RED };

enum scene_eye { SCENE_STILL, SCENE_TURNING };

/* Draws picture `picture` of 15 a second into width x height samples. */
void scene_draw(uint8_t *samples, size_t width, size_t height, enum scene_plane plane, enum scene_eye eye, unsigned picture);

#endif
