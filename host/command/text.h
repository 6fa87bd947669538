/* Text that comes from outside: names of files and of channels. */
#ifndef TEXT_H
#define TEXT_H

#include <stdbool.h>
#include <stddef.h>
#include <stdint.h>

/* Bytes of the UTF-8 character that begins there, 1 to 4; 0 where none does. */
size_t utf8_bytes(const uint8_t *at, size_t left);

/* In place: what is a control character, or no UTF-8, becomes `?`. */
void make_plain(char *bytes, size_t length);

/* A plain copy that ends with a zero byte, cut to the room. */
void copy_plain(char *to, size_t room, const char *from);

#endif
