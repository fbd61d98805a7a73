/* The standard streams, and the status that the command ends with. */
#ifndef STANDARD_H
#define STANDARD_H

enum status { GOOD = 0, REFUSED = 1, USELESS = 2 };

/* What a file is called where something is said of it: - is standard input. */
const char *told_name(const char *name);

/* A line on standard error: what is wrong, and with which word or file, if with one. And the
 * beginning of such a line, up to what is wrong. */
void complain(const char *name, const char *why);
void begin_complaint(const char *name);

/* The same of what can't be read or written, which is USELESS. */
enum status useless(const char *name, const char *why);

/* Whether all that was written to standard output got there; complains where it didn't. */
int written_out(void);

#endif
