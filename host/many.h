/* Many files, several at a time, with what is said of each in order. */
#ifndef MANY_H
#define MANY_H

#include "system.h"

/* A job says its part on both streams and answers an exit status. It shares nothing that is written with other jobs. */
typedef int (*Job)(const void *given, size_t i, FILE *out, FILE *err);

/* Does jobs 0 to count - 1, up to `at_once` at a time. Standard output and standard error get the parts in order. Where standard
 * error is a terminal, work of over a second shows how far it is. Answers the greatest status. */
int do_many(size_t count, size_t at_once, Job job, const void *given);

#endif
