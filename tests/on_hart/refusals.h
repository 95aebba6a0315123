/* Calls that are refused, each by its name: the same on Linux and on a hart. */
#ifndef REFUSALS_H
#define REFUSALS_H

/* How many of them are answered otherwise, or change what they should leave. */
unsigned refusals_wrong(void);

/* How many there are. */
extern const unsigned refusals_count;
#endif
