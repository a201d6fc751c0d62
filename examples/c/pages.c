/*
 * The shop in two languages, by templates that are compiled once and pages that are pulled: reads the templates, the data
 * and the translations in a folder, and writes page.en.html and page.he.html into another.
 *
 *     make -C dist
 *     cc -Iinclude -o pages examples/c/pages.c dist/out/libsoyc.a
 *     ./pages examples/shop .
 */
#include <stdio.h>
#include <stdlib.h>
#include <string.h>

#include "soyc.h"

enum { SOURCES = 3 };

static const char *const sources[SOURCES] = {"layout.soy", "list.soy", "product.soy"};

/* Bytes that grow. */
struct bytes {
    uint8_t *at;
    size_t length;
};

static void stop(const char *what, const char *name) {
    fprintf(stderr, "pages: %s: %s\n", name, what);
    exit(1);
}

/* Adds bytes, and says which part they are. */
static struct soyc_part put(struct bytes *bytes, const void *more, size_t length) {
    struct soyc_part part = {bytes->length, bytes->length + length};
    bytes->at = realloc(bytes->at, part.end + 1);
    if (!bytes->at) stop("out of memory", "a file");
    if (length > 0) memcpy(bytes->at + part.begin, more, length);
    bytes->length = part.end;
    return part;
}

/* Reads a file of a folder, with its name before it. */
static struct soyc_file put_file(struct bytes *bytes, const char *folder, const char *name) {
    char path[4096], piece[65536];
    struct soyc_file file;
    size_t count;
    FILE *from;
    snprintf(path, sizeof path, "%s/%s", folder, name);
    from = fopen(path, "rb");
    if (!from) stop("can't be read", path);
    file.name = put(bytes, name, strlen(name));
    file.content.begin = bytes->length;
    while ((count = fread(piece, 1, sizeof piece, from)) > 0) put(bytes, piece, count);
    file.content.end = bytes->length;
    if (ferror(from)) stop("can't be read", path);
    fclose(from);
    return file;
}

/* Ends the program where a call isn't done, with the line of its fault, as much of it as was put. */
static void check(const char *call, uint32_t status, const uint8_t *err, size_t room, const struct soyc_fault *fault) {
    size_t length = fault->err < room ? fault->err : room;
    if (status == SOYC_DONE) return;
    fprintf(stderr, "pages: %s: status %u\n%.*s", call, (unsigned)status, (int)length, (const char *)err);
    exit(1);
}

/* The templates of the shop under these translations, or under none. */
static struct soyc_templates compile(const char *from, const char *bundle) {
    struct soyc_templates templates = {0};
    struct soyc_file files[SOURCES], translations = {{0, 0}, {0, 0}};
    struct soyc_fault fault;
    struct bytes bytes = {0};
    uint8_t err[4096];
    size_t i;
    for (i = 0; i < SOURCES; i++) files[i] = put_file(&bytes, from, sources[i]);
    if (bundle) translations = put_file(&bytes, from, bundle);
    check("soyc_compile",
          soyc_compile(bytes.at, bytes.length, files, SOURCES, &translations, bundle ? 1 : 0, &templates, err,
                       sizeof err, &fault),
          err, sizeof err, &fault);
    free(bytes.at);
    return templates;
}

/* Writes the page of these data into a file, piece by piece. */
static void write_page(struct soyc_templates *templates, const char *from, const char *data_name, const char *to,
                       const char *name) {
    static const char template_name[] = "shop.list.main";
    struct soyc_page page = {0};
    struct soyc_fault fault;
    struct bytes data = {0};
    struct soyc_part json;
    uint8_t room[512], err[4096];
    char path[4096];
    size_t given;
    FILE *out;
    snprintf(path, sizeof path, "%s/%s", to, name);
    out = fopen(path, "wb");
    if (!out) stop("can't be written", path);
    json = put_file(&data, from, data_name).content;
    check("soyc_open",
          soyc_open(templates, (const uint8_t *)template_name, sizeof template_name - 1, data.at + json.begin,
                    json.end - json.begin, &page, err, sizeof err, &fault),
          err, sizeof err, &fault);
    free(data.at);
    do {
        check("soyc_pull", soyc_pull(&page, room, sizeof room, &given, err, sizeof err, &fault), err, sizeof err,
              &fault);
        if (fwrite(room, 1, given, out) != given) stop("can't be written", path);
    } while (given > 0);
    soyc_close(&page);
    if (fclose(out) != 0) stop("can't be written", path);
}

int main(int count, char **words) {
    struct soyc_templates english, hebrew;
    if (count != 3) {
        fprintf(stderr, "usage: pages FROM TO\n");
        return 2;
    }
    english = compile(words[1], NULL);
    hebrew = compile(words[1], "he.json");
    write_page(&english, words[1], "data.json", words[2], "page.en.html");
    write_page(&hebrew, words[1], "data.he.json", words[2], "page.he.html");
    soyc_free(&english);
    soyc_free(&hebrew);
    return 0;
}
