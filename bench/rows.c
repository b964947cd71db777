/* Prints the rows of the trees of tree_file.py from numbers in memory, as `scan` or `export` prints them.
 * Words: wide, counted or objects; scan, as (of objects: in version 2) or export; how many entries; how many branches. */
#include <stdio.h>
#include <stdlib.h>
#include <string.h>

static int csv, other;

static void *numbers(long count, int width) {
    void *room = malloc((size_t)count * width + 1);
    if (!room) exit(1);
    return room;
}

static void begin_row(long entry) {
    if (!csv) printf("%ld [", entry);
}

static void end_row(void) {
    puts(csv ? "" : "]");
}

static void next_field(void) {
    fputs(csv ? "," : ", ", stdout);
}

static void wide(long entries, long branches) {
    int *all = numbers(entries * branches, sizeof(int));
    for (long k = 0; k < entries * branches; k++) all[k] = (int)k;
    for (long e = 0; e < entries; e++) {
        begin_row(e);
        for (long j = 0; j < branches; j++) {
            if (j) next_field();
            printf("%d", all[e * branches + j]);
        }
        end_row();
    }
}

static void list(const char *from, int count, int width, const char *form) {
    const char *quote = csv && count > 1 ? "\"" : "";
    next_field();
    printf("%s[", quote);
    for (int i = 0; i < count; i++) {
        unsigned long bits = 0;
        memcpy(&bits, from + i * width, width);
        if (i) printf(", ");
        printf(form, bits);
    }
    printf("]%s", quote);
}

/* The numbers of the tree `counted`, by the same rule, and each kind of them in the order of the lines. */
static void counted(long entries) {
    long floats = 0, ints = 0, doubles = 0;
    int *n = numbers(entries, sizeof(int)), *k = numbers(entries, sizeof(int));
    float *x = numbers(entries * 5, sizeof(float));
    int *whole = numbers(entries * 36, sizeof(int));
    double *real = numbers(entries * 36, sizeof(double));
    for (long e = 0; e < entries; e++) {
        n[e] = e * 7 % 10;
        k[e] = e * 3 % 6;
        for (int i = 0; i < k[e]; i++) x[floats++] = (e % 1000) / 4.0f - i;
        for (int j = 0; j < 8; j++)
            for (int i = 0; i < n[e]; i++)
                if (j % 2 == 0) whole[ints++] = (e * 8 + j) * 10 + i;
                else real[doubles++] = ((e * 8 + j) * 10 + i) / 8.0 - 1000;
    }
    floats = ints = doubles = 0;
    for (long e = 0; e < entries; e++) {
        begin_row(e);
        printf("%d", n[e]);
        next_field();
        printf("%d", k[e]);
        list((char *)(x + floats), k[e], 4, "0x%08lx");
        floats += k[e];
        for (int j = 0; j < 8; j++)
            if (j % 2 == 0) list((char *)(whole + ints), n[e], 4, "%ld"), ints += n[e];
            else list((char *)(real + doubles), n[e], 8, "0x%016lx"), doubles += n[e];
        end_row();
    }
}

static void objects(long entries) {
    struct object { long a; int b; float f; } *all = numbers(entries, sizeof(struct object));
    const char *quote = csv ? "\"" : "";
    for (long e = 0; e < entries; e++) all[e] = (struct object){1000003 * e, (int)-e, e / 4.0f};
    for (long e = 0; e < entries; e++) {
        unsigned bits;
        memcpy(&bits, &all[e].f, 4);
        begin_row(e);
        printf("%ld", e);
        next_field();
        if (other) printf("%sP#2{f: 0x%08x, a: %d, c: [0, 0]}%s", quote, bits, (short)all[e].a, quote);
        else printf("%sP#1{a: %ld, b: %d, f: 0x%08x}%s", quote, all[e].a, all[e].b, bits, quote);
        end_row();
    }
}

int main(int words, char **word) {
    if (words != 5) return 2;
    long entries = atol(word[3]), branches = atol(word[4]);
    csv = !strcmp(word[2], "export");
    other = !strcmp(word[2], "as");
    if (!csv) printf("ok scan G %ld\n", entries);
    if (!strcmp(word[1], "wide")) wide(entries, branches);
    else if (!strcmp(word[1], "counted")) counted(entries);
    else objects(entries);
    return 0;
}
