/* Several recordings, one after another, each into a file of its name in a folder. */
#ifndef BATCH_H
#define BATCH_H

#include "options.h"
#include "report.h"

/* Does them all, each in a process of its own, and answers the worst status. */
int run_batch(const struct options *o, struct sink *sink);

#endif
