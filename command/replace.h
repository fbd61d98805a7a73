/* A file put in another's place, whole or not at all. */
#ifndef REPLACE_H
#define REPLACE_H

#include <stddef.h>

/* Makes the file of that name hold these bytes. One that is there is replaced only if it is a
 * regular file that may be written, and keeps its permissions and owner. A null pointer, or why it
 * could not be done: then all is as it was. */
const char *replace_file(const char *name, const void *bytes, size_t length);

#endif
