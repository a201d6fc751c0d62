/* pages TEMPLATE DATA BUNDLE COUNT FILE..: compiles the files once under a bundle, or - for none, and makes so many
   pages of the template, reading the data anew for each; prints the microseconds that these took, and those on a
   processor. For COUNT 0 it writes the page instead. */
#include <stdio.h>
#include <stdlib.h>
#include <string.h>
#include <sys/resource.h>
#include <time.h>

#include "soyc.h"

static uint8_t *bytes, piece[65536], line[4096];
static size_t length;
static struct soyc_fault fault;
static struct soyc_templates templates;

static void stop(const char *what) {
    fprintf(stderr, "pages: %s\n", what);
    exit(1);
}

static struct soyc_part put(const void *text, size_t count) {
    struct soyc_part part = {length, length + count};
    bytes = realloc(bytes, part.end + 1);
    if (!bytes) stop("out of memory");
    memcpy(bytes + length, text, count);
    length = part.end;
    return part;
}

static struct soyc_file file(const char *path) {
    struct soyc_file it;
    size_t count;
    FILE *from = fopen(path, "rb");
    if (!from) stop(path);
    it.name = put(path, strlen(path));
    it.content.begin = it.content.end = length;
    while ((count = fread(piece, 1, sizeof piece, from)) > 0) it.content.end = put(piece, count).end;
    fclose(from);
    return it;
}

static void done(uint32_t status) {
    if (status == SOYC_DONE) return;
    fprintf(stderr, "pages: status %u: %.*s\n", status, (int)(fault.err < sizeof line ? fault.err : sizeof line), line);
    exit(1);
}

/* Makes the page, and writes it where it is to be seen. */
static size_t page(const char *name, const struct soyc_file *data, FILE *to) {
    struct soyc_page open = {0};
    size_t given, whole = 0;
    done(soyc_open(&templates, (const uint8_t *)name, strlen(name), bytes + data->content.begin,
                   data->content.end - data->content.begin, &open, line, sizeof line, &fault));
    for (;;) {
        done(soyc_pull(&open, piece, sizeof piece, &given, line, sizeof line, &fault));
        if (given == 0) break;
        if (to) fwrite(piece, 1, given, to);
        whole += given;
    }
    soyc_close(&open);
    return whole;
}

static double wall(void) {
    struct timespec t;
    clock_gettime(CLOCK_MONOTONIC, &t);
    return t.tv_sec * 1e6 + t.tv_nsec / 1e3;
}

static double busy(void) {
    struct rusage used;
    getrusage(RUSAGE_SELF, &used);
    return (used.ru_utime.tv_sec + used.ru_stime.tv_sec) * 1e6 + used.ru_utime.tv_usec + used.ru_stime.tv_usec;
}

int main(int count, char **words) {
    struct soyc_file files[64], bundle, data;
    double from, busy_from;
    long pages, i;
    if (count < 6 || count > 69) return 2;
    for (i = 5; i < count; i++) files[i - 5] = file(words[i]);
    data = file(words[2]);
    memset(&bundle, 0, sizeof bundle);
    if (strcmp(words[3], "-") != 0) bundle = file(words[3]);
    done(soyc_compile(bytes, length, files, count - 5, &bundle, strcmp(words[3], "-") != 0, &templates, line,
                      sizeof line, &fault));
    pages = atol(words[4]);
    if (pages == 0) return page(words[1], &data, stdout) == 0;
    page(words[1], &data, NULL);
    from = wall(), busy_from = busy();
    for (i = 0; i < pages; i++) page(words[1], &data, NULL);
    printf("%f %f\n", wall() - from, busy() - busy_from);
    soyc_free(&templates);
    return 0;
}
