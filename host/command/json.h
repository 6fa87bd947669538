/* JSON, written field by field. */
#ifndef JSON_H
#define JSON_H

#include <stdbool.h>
#include <stddef.h>
#include <stdint.h>
#include <stdio.h>

/* A string, in its quotes; what is no UTF-8 becomes U+FFFD. */
void json_string(FILE *to, const void *bytes, size_t length);

/* , "name": and a value. A text that is NULL is null. */
void json_name(FILE *to, const char *name);
void json_number(FILE *to, const char *name, uint64_t value);
void json_bool(FILE *to, const char *name, bool value);
void json_text(FILE *to, const char *name, const char *text);

#endif
