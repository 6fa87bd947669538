/* Taking columns out of a column file into a new one. */
#ifndef TAKING_H
#define TAKING_H

#include "options.h"

/* Does it and answers the status; ends the command where it fails. Once in a process. */
int run_taking(const struct options *o);

#endif
