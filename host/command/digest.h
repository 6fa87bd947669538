/* SHA-256 by the system's libcrypto, which is loaded when it is asked for: the command is built and runs without it. */
#ifndef DIGEST_H
#define DIGEST_H

#include <stddef.h>

#include "report.h"

struct digest;

/* Fails where there is no libcrypto. */
struct digest *begin_digest(void);
void add_to_digest(struct digest *d, const void *bytes, size_t length);
void end_digest(struct digest *d, char text[DIGEST_TEXT]);

#endif
