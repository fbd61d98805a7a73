/* The reference held to the numbers that documents 01 and 02 and the sources print, before anything
 * is compared with it. */
#ifndef PRINTED_FACTS_H
#define PRINTED_FACTS_H

/* Prints each fact that doesn't hold; gives whether all do. */
int facts_hold(void);

#endif
