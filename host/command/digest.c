#define _GNU_SOURCE
#include "digest.h"

#include <stdio.h>

#include "messages.h"

#ifdef STATIC_COMMAND

struct digest *begin_digest(void)
{
    fail("--sha256 needs libcrypto, which the static command can't load; use sha256sum");
}

void add_to_digest(struct digest *d, const void *bytes, size_t length)
{
    (void)d, (void)bytes, (void)length;
}

void end_digest(struct digest *d, char text[DIGEST_TEXT])
{
    (void)d, (void)text;
}

#else

#include <dlfcn.h>

enum { DIGEST_BYTES = 32 };

/* The functions of libcrypto's EVP that are used, with its opaque types as void. */
struct digest {
    void *context;
    void *(*new_context)(void);
    const void *(*sha256)(void);
    int (*begin)(void *context, const void *type, void *engine);
    int (*add)(void *context, const void *bytes, size_t length);
    int (*end)(void *context, unsigned char *digest, unsigned *length);
};

static void *load_libcrypto(void)
{
    static const char *const names[] = {"libcrypto.so.3", "libcrypto.so.1.1", "libcrypto.so"};
    void *library = NULL;
    for (size_t i = 0; !library && i < sizeof names / sizeof *names; i++)
        library = dlopen(names[i], RTLD_NOW | RTLD_LOCAL);
    if (!library)
        fail("--sha256 needs libcrypto (OpenSSL), which is not on this machine");
    return library;
}

static void *find(void *library, const char *name)
{
    void *found = dlsym(library, name);
    if (!found)
        fail("--sha256: libcrypto has no %s", name);
    return found;
}

struct digest *begin_digest(void)
{
    static struct digest one, *d = &one;
    if (!d->context) {
        void *library = load_libcrypto();
        *(void **)&d->new_context = find(library, "EVP_MD_CTX_new"); /* POSIX's way to take a function from dlsym */
        *(void **)&d->sha256 = find(library, "EVP_sha256");
        *(void **)&d->begin = find(library, "EVP_DigestInit_ex");
        *(void **)&d->add = find(library, "EVP_DigestUpdate");
        *(void **)&d->end = find(library, "EVP_DigestFinal_ex");
        d->context = d->new_context();
    }
    if (!d->context || d->begin(d->context, d->sha256(), NULL) != 1)
        fail("--sha256: libcrypto has no SHA-256");
    return d;
}

void add_to_digest(struct digest *d, const void *bytes, size_t length)
{
    if (d->add(d->context, bytes, length) != 1)
        fail("--sha256: libcrypto failed");
}

void end_digest(struct digest *d, char text[DIGEST_TEXT])
{
    unsigned char bytes[64];
    unsigned length = 0;
    if (d->end(d->context, bytes, &length) != 1 || length != DIGEST_BYTES)
        fail("--sha256: libcrypto failed");
    for (unsigned i = 0; i < length; i++)
        snprintf(text + 2 * i, 3, "%02x", bytes[i]);
}

#endif
