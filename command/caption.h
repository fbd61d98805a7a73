/* What stands in a picture before its symbols. */
#ifndef CAPTION_H
#define CAPTION_H

#include <stdio.h>

#include "view.h"

enum { CAPTION_HEIGHT = 212 };

/* The title, the colours, what came of the reading, and what colours and numbers mean, from a left
 * edge on. */
void draw_caption(FILE *out, const struct view *view, int left);

/* The colour of a symbol, as the name of a class of style. */
void put_colour(FILE *out, uint32_t mode, const lernazhup_matched *symbol);

#endif
