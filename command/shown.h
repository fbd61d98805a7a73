/* Bytes that somebody else chose, shown so that no terminal and no reader of JSON or XML is led
 * astray. */
#ifndef SHOWN_H
#define SHOWN_H

#include <stddef.h>
#include <stdint.h>
#include <stdio.h>

/* A name, on a terminal: bytes that are no UTF-8, control characters, and those that turn the
 * direction of writing, as dots. */
void show_name(FILE *out, const char *name);

/* A name as a string of JSON, with its quotes: bytes that are no UTF-8 as U+FFFD. */
void show_json(FILE *out, const char *name);

/* A name as text of XML: as on a terminal, and what is markup there by its name. Where it has more
 * than so many characters, three dots and the last of them. */
void show_xml(FILE *out, const char *name, size_t most);

/* An octet in ASCII, and a dot for what is no printable character there. */
int shown_octet(uint8_t octet);

#endif
