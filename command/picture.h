/* A capture as a picture, in SVG. */
#ifndef PICTURE_H
#define PICTURE_H

#include <stdio.h>

#include "view.h"

/* More bytes than any picture has. */
#define PICTURE_MAX 500000

/* Without script, and with nothing from elsewhere. */
void draw_picture(FILE *out, const struct view *view);

#endif
