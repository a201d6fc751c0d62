/*
 * A test: commands by the library, a page and each kind of refusal, with each allocation refused in turn. Where one is
 * refused nothing may be put, and where none is the answer has to be there. It is linked with
 * -Wl,--wrap=malloc,--wrap=realloc.
 */
#include <stdio.h>
#include <stdlib.h>
#include <string.h>

#include "soyc.h"

enum { AMPLE = 1000000000, MOST_WORDS = 8 };

/* How many allocations are granted from now on, and how many were asked for. */
static long granted = AMPLE, asked;

void *__real_malloc(size_t size);
void *__real_realloc(void *before, size_t size);

static int is_granted(void) {
    asked++;
    return granted-- > 0;
}

void *__wrap_malloc(size_t size) { return is_granted() ? __real_malloc(size) : NULL; }
void *__wrap_realloc(void *before, size_t size) { return is_granted() ? __real_realloc(before, size) : NULL; }

static const char SOURCE[] = "{namespace t}\n{template m}\n{@param x: string}\n<b>{$x}</b>\n{/template}\n";
static const char TYPE[] = "{namespace t}\n{template m}\n{@param x: string}\n{1 + ($x * 2)}\n{/template}\n";
static const char DEEP[] = "{namespace t}\n{template d}\na{call t.d}{/call}\n{/template}\n";
static const char RULE[] = "{\"dir\":\"ltr\",\"messages\":{},\"plural\":{\"one\":\"n is 1\"}}";
static const char DATA[] = "{\"x\":\"abc\"}";

/* The words, the contents of t.soy, b.json and d.json, the status, and both texts, of `err` only the beginning. A text
 * that is NULL isn't compared. */
static const struct row {
    const char *words, *source, *bundle, *data;
    uint32_t status;
    const char *out, *err;
} rows[] = {
    {"render t.m d.json - t.soy", SOURCE, "", DATA, SOYC_DONE, "<b><span dir=\"ltr\">abc</span></b>", ""},
    {"check b.json t.soy", SOURCE, "{\"dir\":\"rtl\",\"messages\":{}}", "", SOYC_DONE, "ok\n", ""},
    {"extract t.soy", SOURCE, "", "", SOYC_DONE, NULL, ""},
    {"format t.soy", SOURCE, "", "", SOYC_DONE, NULL, ""},
    {"preview t.m d.json - t.soy", SOURCE, "", DATA, SOYC_DONE, NULL, ""},
    {"render t.m d.json -", "", "", "", SOYC_USAGE, "", NULL},
    {"check - none.soy", "", "", "", SOYC_READ, "", "none.soy: read fault\n"},
    {"check - t.soy", "{namespace t}\n {template", "", "", SOYC_REFUSED, "", "t.soy:2:11: 4 Syntax\n"},
    {"check - t.soy", TYPE, "", "", SOYC_REFUSED, "", "t.soy:4:7: 8 Type\n"},
    {"check b.json t.soy", SOURCE, "{\"dir\":", "", SOYC_REFUSED, "", "b.json:: 21 Bundle\n"},
    {"check b.json t.soy", SOURCE, RULE, "", SOYC_REFUSED, "", "b.json:/plural/one: 23 Rule\n"},
    {"render t.zz d.json - t.soy", SOURCE, "", DATA, SOYC_REFUSED, "", "t.zz: 29 Entry\n"},
    {"render t.m d.json - t.soy", SOURCE, "", "{", SOYC_REFUSED, "", "d.json:: 27 Data\n"},
    {"render t.m d.json - t.soy", SOURCE, "", "{\"x\":[1]}", SOYC_REFUSED, "", "d.json:/x: 28 DataType\n"},
    {"render t.d d.json - t.soy", DEEP, "", "{}", SOYC_TOO_DEEP, NULL, "t.soy:3:2: 31 TooDeep\n"},
};

static char bytes[4096];
static uint8_t out[1024], err[1024], untouched[1024];
static struct soyc_lengths lengths;

/* Adds a text to the bytes, and says which part it is. */
static struct soyc_part put(const char *text, size_t text_length, size_t *length) {
    struct soyc_part part = {*length, *length + text_length};
    memcpy(bytes + part.begin, text, text_length);
    *length = part.end;
    return part;
}

/* Runs a row's command with so many allocations. */
static uint32_t run(const struct row *row, long allocations) {
    const char *contents[3], *names[3] = {"t.soy", "b.json", "d.json"}, *word = row->words;
    struct soyc_part words[MOST_WORDS];
    struct soyc_file files[3];
    size_t length = 0, word_count = 0, i;
    uint32_t status;
    contents[0] = row->source, contents[1] = row->bundle, contents[2] = row->data;
    for (; *word; word += strspn(word, " ")) {
        size_t word_length = strcspn(word, " ");
        words[word_count++] = put(word, word_length, &length);
        word += word_length;
    }
    for (i = 0; i < 3; i++) {
        files[i].name = put(names[i], strlen(names[i]), &length);
        files[i].content = put(contents[i], strlen(contents[i]), &length);
    }
    memset(out, '.', sizeof out);
    memset(err, '.', sizeof err);
    granted = allocations;
    asked = 0;
    status = soyc_run((const uint8_t *)bytes, length, words, word_count, files, 3, out, sizeof out, err, sizeof err,
                      &lengths);
    granted = AMPLE;
    return status;
}

static int is(const char *text, const uint8_t *room, size_t length) {
    return !text || (length == strlen(text) && memcmp(room, text, length) == 0);
}

static void stop(const struct row *row, const char *what, long count) {
    fprintf(stderr, "memory: %s: %s, with %ld allocations: %.*s", row->words, what, count, (int)lengths.err,
            (const char *)err);
    exit(1);
}

int main(void) {
    size_t i;
    long most, count;
    memset(untouched, '.', sizeof untouched);
    for (i = 0; i < sizeof rows / sizeof rows[0]; i++) {
        const struct row *row = &rows[i];
        if (run(row, AMPLE) != row->status || !is(row->out, out, lengths.out) || !is(row->err, err, lengths.err))
            stop(row, "another answer", AMPLE);
        most = asked;
        for (count = 0; count < most; count++) {
            if (run(row, count) != SOYC_MEMORY || lengths.out != 0 || lengths.err != 0 ||
                memcmp(out, untouched, sizeof out) != 0 || memcmp(err, untouched, sizeof err) != 0)
                stop(row, "something was put although memory ran out", count);
        }
        if (run(row, most) != row->status || !is(row->out, out, lengths.out) || !is(row->err, err, lengths.err))
            stop(row, "another answer after memory ran out", most);
    }
    return 0;
}
