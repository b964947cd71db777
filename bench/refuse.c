/* Goes before the C library in a program (LD_PRELOAD) and refuses memory: with REFUSED=N the Nth allocation, with REFUSED=N+ all from it on.
 * At the end it writes into the file ALLOCATIONS how many there were. */
#include <stdio.h>
#include <stdlib.h>
#include <string.h>

void *__libc_malloc(size_t);
void *__libc_realloc(void *, size_t);

static unsigned long made, refused;
static int goes_on;

__attribute__((constructor)) static void begin(void) {
    const char *word = getenv("REFUSED");
    if (word) refused = strtoul(word, NULL, 10), goes_on = strchr(word, '+') != NULL;
    made = 0;
}

__attribute__((destructor)) static void end(void) {
    unsigned long count = made;
    const char *name = getenv("ALLOCATIONS");
    refused = 0;
    FILE *file = name ? fopen(name, "w") : NULL;
    if (file) fprintf(file, "%lu\n", count), fclose(file);
}

static int is_refused(void) { return ++made == refused || (goes_on && made > refused); }

void *malloc(size_t n) { return is_refused() ? NULL : __libc_malloc(n); }

void *realloc(void *at, size_t n) { return is_refused() ? NULL : __libc_realloc(at, n); }
