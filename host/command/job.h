/* One recording: converted into RESULT, or RESULT held to it. */
#ifndef JOB_H
#define JOB_H

#include "options.h"
#include "report.h"

/* Does it and answers the status; ends the command where it fails. Once in a process. */
int run_job(const struct options *o, const char *recording, const char *result, struct sink *sink);

#endif
