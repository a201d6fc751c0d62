/*
 * The shop in two languages, by the library: reads the templates, the data and the translations in a folder, and writes
 * page.en.html and page.he.html into another.
 *
 *     make -C dist
 *     cc -Iinclude -o shop examples/c/shop.c dist/out/libsoyc.a
 *     ./shop examples/shop .
 */
#include <stdio.h>
#include <stdlib.h>
#include <string.h>

#include "soyc.h"

enum { MOST_PARTS = 16 };

/* What a call is given: bytes, and which parts of them its words and files are. */
struct call {
    uint8_t *bytes;
    size_t length;
    struct soyc_part words[MOST_PARTS];
    size_t word_count;
    struct soyc_file files[MOST_PARTS];
    size_t file_count;
};

static void stop(const char *what, const char *name) {
    fprintf(stderr, "shop: %s: %s\n", name, what);
    exit(1);
}

static void *room(void *before, size_t size) {
    void *after = realloc(before, size);
    if (!after) stop("out of memory", "a room");
    return after;
}

/* Puts bytes into the call and says which part they are. */
static struct soyc_part put(struct call *call, const void *bytes, size_t length) {
    struct soyc_part part = {call->length, call->length + length};
    call->bytes = room(call->bytes, part.end + 1);
    if (length > 0) memcpy(call->bytes + part.begin, bytes, length);
    call->length = part.end;
    return part;
}

static void put_word(struct call *call, const char *word) {
    if (call->word_count == MOST_PARTS) stop("a word too many", word);
    call->words[call->word_count++] = put(call, word, strlen(word));
}

/* Reads a file of a folder into the call, under its name. */
static void put_file(struct call *call, const char *folder, const char *name) {
    char path[4096], piece[65536];
    struct soyc_file file;
    size_t count;
    FILE *from;
    if (call->file_count == MOST_PARTS) stop("a file too many", name);
    snprintf(path, sizeof path, "%s/%s", folder, name);
    from = fopen(path, "rb");
    if (!from) stop("can't be read", path);
    file.name = put(call, name, strlen(name));
    file.content.begin = call->length;
    while ((count = fread(piece, 1, sizeof piece, from)) > 0) put(call, piece, count);
    file.content.end = call->length;
    if (ferror(from)) stop("can't be read", path);
    fclose(from);
    call->files[call->file_count++] = file;
}

/* Runs the call and writes its page into a file; where there is no page, says why. */
static void write_page(const struct call *call, const char *folder, const char *name) {
    struct soyc_lengths lengths = {0, 0};
    /* (a first room that is too small, to show what is done then) */
    size_t out_room = 100, err_room = 4096;
    uint8_t *out = room(NULL, out_room), *err = room(NULL, err_room);
    char path[4096];
    uint32_t status;
    FILE *to;
    for (;;) {
        status = soyc_run(call->bytes, call->length, call->words, call->word_count, call->files, call->file_count, out,
                          out_room, err, err_room, &lengths);
        if (lengths.out <= out_room && lengths.err <= err_room) break;
        if (lengths.out > out_room) out = room(out, out_room = lengths.out);
        if (lengths.err > err_room) err = room(err, err_room = lengths.err);
    }
    if (status != SOYC_DONE) {
        fprintf(stderr, "shop: %s: status %u\n%.*s", name, (unsigned)status, (int)lengths.err, (const char *)err);
        exit(1);
    }
    snprintf(path, sizeof path, "%s/%s", folder, name);
    to = fopen(path, "wb");
    if (!to || fwrite(out, 1, lengths.out, to) != lengths.out || fclose(to) != 0) stop("can't be written", path);
    free(out);
    free(err);
}

/* The page of the shop with these data under these translations. */
static void render(const char *from, const char *to, const char *data, const char *bundle, const char *page) {
    static const char *const sources[] = {"layout.soy", "list.soy", "product.soy"};
    struct call call = {0};
    size_t i;
    put_word(&call, "render");
    put_word(&call, "shop.list.main");
    put_word(&call, data);
    put_word(&call, bundle);
    put_file(&call, from, data);
    if (strcmp(bundle, "-") != 0) put_file(&call, from, bundle);
    for (i = 0; i < sizeof sources / sizeof *sources; i++) {
        put_word(&call, sources[i]);
        put_file(&call, from, sources[i]);
    }
    write_page(&call, to, page);
    free(call.bytes);
}

int main(int count, char **words) {
    if (count != 3) {
        fprintf(stderr, "usage: shop FROM TO\n");
        return 2;
    }
    render(words[1], words[2], "data.json", "-", "page.en.html");
    render(words[1], words[2], "data.he.json", "he.json", "page.he.html");
    return 0;
}
