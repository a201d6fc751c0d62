/*
 * A test of templates and pages: what each call answers where its slots aren't as they have to be, what a fault says,
 * that an open page outlives its templates, that a million pulls take no memory, and that of a page and of each kind of
 * refusal, with each allocation refused in turn, a call answers so, leaves what can be closed and can be made again. It
 * is linked with
 * -Wl,--wrap=malloc,--wrap=realloc,--wrap=free. A word is the number of pulls instead of a million.
 */
#include <malloc.h>
#include <stdio.h>
#include <stdlib.h>
#include <string.h>

#include "soyc.h"

enum { AMPLE = 1000000000 };

/* How many allocations are granted from now on, how many were asked for, how many blocks and bytes there are, and how
 * many bytes there were at most. */
static long granted = AMPLE, asked, blocks, bytes, most_bytes;

void *__real_malloc(size_t size);
void *__real_realloc(void *before, size_t size);
void __real_free(void *block);

static int is_granted(void) {
    asked++;
    return granted-- > 0;
}

static void count_bytes(long more) {
    bytes += more;
    if (bytes > most_bytes) most_bytes = bytes;
}

void *__wrap_malloc(size_t size) {
    void *block = is_granted() ? __real_malloc(size) : NULL;
    blocks += block != NULL;
    count_bytes((long)malloc_usable_size(block));
    return block;
}

void *__wrap_realloc(void *before, size_t size) {
    long had = (long)malloc_usable_size(before);
    void *after = is_granted() ? __real_realloc(before, size) : NULL;
    blocks += before == NULL && after != NULL;
    if (after) count_bytes((long)malloc_usable_size(after) - had);
    return after;
}

void __wrap_free(void *block) {
    blocks -= block != NULL;
    count_bytes(-(long)malloc_usable_size(block));
    __real_free(block);
}

static int is_all_given_back(void) { return blocks == 0 && bytes == 0; }

#define CHECK(holds) \
    do { \
        if (!(holds)) { \
            fprintf(stderr, "handles: line %d: %s\n", __LINE__, #holds); \
            exit(1); \
        } \
    } while (0)

static struct soyc_fault fault;
static uint8_t room[4096], err[4096];
static size_t given;

/* The text of a part of what was put for a fault. */
static int is(struct soyc_part part, const char *text) {
    return part.end - part.begin == strlen(text) && memcmp(err + part.begin, text, strlen(text)) == 0;
}

/* Compiles one file under a bundle or under none. */
static uint32_t compile(struct soyc_templates *templates, const char *source, const char *bundle) {
    static uint8_t bytes[1 << 16];
    struct soyc_file file = {{0, 5}, {5, 5}}, translations;
    size_t source_length = strlen(source), bundle_length = bundle ? strlen(bundle) : 0;
    memcpy(bytes, "t.soy", 5);
    memcpy(bytes + 5, source, source_length);
    file.content.end = 5 + source_length;
    memcpy(bytes + file.content.end, "b.json", 6);
    translations.name.begin = file.content.end;
    translations.name.end = translations.content.begin = file.content.end + 6;
    translations.content.end = translations.content.begin + bundle_length;
    if (bundle) memcpy(bytes + translations.content.begin, bundle, bundle_length);
    return soyc_compile(bytes, translations.content.end, &file, 1, &translations, bundle != NULL, templates, err,
                        sizeof err, &fault);
}

static uint32_t open(struct soyc_templates *templates, struct soyc_page *page, const char *name, const char *data) {
    return soyc_open(templates, (const uint8_t *)name, strlen(name), (const uint8_t *)data, strlen(data), page, err,
                     sizeof err, &fault);
}

static uint32_t pull(struct soyc_page *page, size_t size) {
    return soyc_pull(page, room, size, &given, err, sizeof err, &fault);
}

/* Whether what pulls of this size give is this text, and then the page has ended. */
static int gives(struct soyc_page *page, size_t size, const char *text) {
    size_t length = strlen(text), had = 0;
    for (;;) {
        if (pull(page, size) != SOYC_DONE) return 0;
        if (given == 0) return had == length && pull(page, size) == SOYC_DONE && given == 0;
        if (had + given > length || memcmp(text + had, room, given) != 0) return 0;
        had += given;
    }
}

static const char SOURCE[] = "{namespace t}\n{template m}\n{@param x: string}\n<b>{$x}</b>\n{/template}\n";
static const char RULE[] = "{\"dir\":\"ltr\",\"messages\":{},\"plural\":{\"one\":\"n is 1\"}}";
static const char DATA[] = "{\"x\":\"abc\"}";
static const char PAGE[] = "<b><span dir=\"ltr\">abc</span></b>";
static const char DEEP[] = "{namespace t}\n{template d}\na{call t.d}{/call}\n{/template}\n";
static const char TYPE[] = "{namespace t}\n{template m}\n{@param x: string}\n{1 + ($x * 2)}\n{/template}\n";
static const char LOOP[] = "{namespace t}\n{template l}\n{@param xs: list<string>}\n"
                           "{for $x in $xs}<i>{$x}</i>{/for}\n{/template}\n";

/* Each slot where the other is wanted, which is moved there and back: nothing is changed. */
static void swapped(struct soyc_templates *templates, struct soyc_page *page) {
    struct soyc_templates no_templates;
    struct soyc_page no_page, none = {0};
    void *held = templates->held;
    no_page.held = templates->held;
    CHECK(pull(&no_page, 10) == SOYC_EMPTY && given == 0);
    CHECK(soyc_close(&no_page) == SOYC_EMPTY && no_page.held == held);
    held = page->held;
    no_templates.held = page->held;
    CHECK(open(&no_templates, &none, "t.m", DATA) == SOYC_EMPTY && none.held == NULL);
    CHECK(compile(&no_templates, SOURCE, NULL) == SOYC_FULL);
    CHECK(soyc_free(&no_templates) == SOYC_EMPTY && no_templates.held == held);
}

static void slots(void) {
    struct soyc_templates templates = {0}, none = {0};
    struct soyc_page page = {0}, other = {0};
    static const uint8_t bad[] = {0xff};
    struct soyc_file beyond = {{0, 9}, {0, 0}}, many[65];
    memset(many, 0, sizeof many);
    CHECK(open(&none, &page, "t.m", DATA) == SOYC_EMPTY && page.held == NULL);
    CHECK(pull(&page, 10) == SOYC_EMPTY && given == 0 && soyc_close(&page) == SOYC_EMPTY);
    CHECK(soyc_free(&none) == SOYC_EMPTY);
    CHECK(soyc_compile(bad, 1, &beyond, 1, &beyond, 0, &templates, err, sizeof err, &fault) == SOYC_MALFORMED);
    CHECK(soyc_compile(bad, 1, many, 0, many, 0, &templates, err, sizeof err, &fault) == SOYC_USAGE);
    CHECK(soyc_compile(bad, 1, many, 65, many, 0, &templates, err, sizeof err, &fault) == SOYC_USAGE);
    CHECK(soyc_compile(bad, 1, many, 1, many, 2, &templates, err, sizeof err, &fault) == SOYC_USAGE);
    CHECK(templates.held == NULL && fault.err == 0 && fault.code == 0 && fault.subject == SOYC_NOWHERE);
    CHECK(compile(&templates, SOURCE, NULL) == SOYC_DONE && templates.held != NULL);
    CHECK(compile(&templates, SOURCE, NULL) == SOYC_FULL);
    CHECK(soyc_open(&templates, bad, 1, bad, 1, &page, err, sizeof err, &fault) == SOYC_MALFORMED);
    CHECK(open(&templates, &page, "t.m", DATA) == SOYC_DONE && open(&templates, &page, "t.m", DATA) == SOYC_FULL);
    CHECK(open(&templates, &other, "t.m", DATA) == SOYC_DONE);
    CHECK(pull(&page, 0) == SOYC_DONE && given == 0);
    CHECK(pull(&page, 2) == SOYC_DONE && given == 2 && memcmp(room, "<b", 2) == 0);
    swapped(&templates, &page);
    CHECK(soyc_free(&templates) == SOYC_DONE && templates.held == NULL && soyc_free(&templates) == SOYC_EMPTY);
    CHECK(gives(&page, 1, PAGE + 2) && gives(&other, 4096, PAGE));
    CHECK(soyc_close(&page) == SOYC_DONE && soyc_close(&page) == SOYC_EMPTY && pull(&page, 1) == SOYC_EMPTY);
    CHECK(soyc_close(&other) == SOYC_DONE && is_all_given_back());
}

static void faults(void) {
    struct soyc_templates templates = {0};
    struct soyc_page page = {0};
    CHECK(compile(&templates, "{namespace t}\n {template", NULL) == SOYC_REFUSED && templates.held == NULL);
    CHECK(fault.subject == SOYC_IN_FILE && fault.file == 0 && fault.line == 2 && fault.err == fault.message.end + 1);
    CHECK(memcmp(err, "t.soy:2:", 8) == 0 && err[fault.message.end] == '\n' && fault.pointer.end == 0);
    CHECK(fault.word.end == fault.message.end && err[fault.word.begin - 1] == ' ');
    CHECK(compile(&templates, SOURCE, "{\"a\":") == SOYC_REFUSED && fault.subject == SOYC_IN_BUNDLE && fault.line == 0);
    CHECK(memcmp(err, "b.json:", 7) == 0 && fault.pointer.begin == 7 && fault.pointer.end == 7);
    CHECK(compile(&templates, SOURCE, NULL) == SOYC_DONE);
    CHECK(open(&templates, &page, "t.zz", DATA) == SOYC_REFUSED && fault.subject == SOYC_IN_NAME && fault.code == 29);
    CHECK(is(fault.message, "t.zz: 29 Entry") && is(fault.word, "Entry") && page.held == NULL);
    CHECK(open(&templates, &page, "t.m", "{\"x\":[1]}") == SOYC_REFUSED && fault.subject == SOYC_IN_DATA);
    CHECK(is(fault.message, "data:/x: 28 DataType") && is(fault.pointer, "/x") && is(fault.word, "DataType"));
    CHECK(open(&templates, &page, "t.m", "{") == SOYC_REFUSED && fault.code == 27 && fault.pointer.begin == 5);
    CHECK(soyc_free(&templates) == SOYC_DONE);
    CHECK(compile(&templates, DEEP, NULL) == SOYC_DONE && open(&templates, &page, "t.d", "{}") == SOYC_DONE);
    CHECK(soyc_free(&templates) == SOYC_DONE);
    while (pull(&page, 4096) == SOYC_DONE) CHECK(given > 0 && room[0] == 'a' && room[given - 1] == 'a');
    CHECK(pull(&page, 4096) == SOYC_TOO_DEEP && given == 0 && fault.subject == SOYC_IN_FILE && fault.line == 3);
    CHECK(fault.code == 31 && memcmp(err, "t.soy:3:", 8) == 0);
    CHECK(soyc_close(&page) == SOYC_DONE && is_all_given_back());
}

static void many_pulls(long most) {
    static char data[1 << 20];
    struct soyc_templates templates = {0};
    struct soyc_page page = {0};
    size_t length, i;
    long before, before_bytes, pulls = 0;
    length = (size_t)sprintf(data, "{\"xs\":[\"a\"");
    for (i = 0; i < 100000; i++) length += (size_t)sprintf(data + length, ",\"a\"");
    sprintf(data + length, "]}");
    CHECK(compile(&templates, LOOP, NULL) == SOYC_DONE && open(&templates, &page, "t.l", data) == SOYC_DONE);
    for (i = 0; i < 100; i++) CHECK(pull(&page, 1) == SOYC_DONE && given == 1);
    before = blocks;
    most_bytes = before_bytes = bytes;
    while (pull(&page, 1) == SOYC_DONE && given == 1 && pulls < most) {
        CHECK(blocks <= before + 2 && most_bytes <= before_bytes + 1024);
        pulls++;
    }
    CHECK(pulls == most);
    CHECK(soyc_close(&page) == SOYC_DONE && soyc_free(&templates) == SOYC_DONE && is_all_given_back());
}

/* A file, a bundle or none, a name and data; and what the calls have to answer, with the whole page or the line of the
 * fault. A row for a page, and for each kind of refusal. */
static const struct row {
    const char *source, *bundle, *name, *data;
    uint32_t status, subject;
    const char *text;
} rows[] = {
    {SOURCE, "{\"dir\":\"rtl\",\"messages\":{}}", "t.m", DATA, SOYC_DONE, SOYC_NOWHERE, PAGE},
    {"{namespace t}\n {template", NULL, "t.m", DATA, SOYC_REFUSED, SOYC_IN_FILE, "t.soy:2:11: 4 Syntax"},
    {TYPE, NULL, "t.m", DATA, SOYC_REFUSED, SOYC_IN_FILE, "t.soy:4:7: 8 Type"},
    {SOURCE, "{\"dir\":", "t.m", DATA, SOYC_REFUSED, SOYC_IN_BUNDLE, "b.json:: 21 Bundle"},
    {SOURCE, RULE, "t.m", DATA, SOYC_REFUSED, SOYC_IN_BUNDLE, "b.json:/plural/one: 23 Rule"},
    {SOURCE, NULL, "t.zz", DATA, SOYC_REFUSED, SOYC_IN_NAME, "t.zz: 29 Entry"},
    {SOURCE, NULL, "t.m", "{", SOYC_REFUSED, SOYC_IN_DATA, "data:: 27 Data"},
    {SOURCE, NULL, "t.m", "{\"x\":[1]}", SOYC_REFUSED, SOYC_IN_DATA, "data:/x: 28 DataType"},
    {DEEP, NULL, "t.d", "{}", SOYC_TOO_DEEP, SOYC_IN_FILE, "t.soy:3:2: 31 TooDeep"},
};

/* Compiles, opens and pulls a row, with so many allocations; whether none was refused. A call that was refused one has
 * changed nothing. Either it is made again with ample memory, and then the answer has to be the row's, or it is the
 * last. At the end page and templates can be given back, as far as they are there. */
static int runs(const struct row *row, long allocations, int is_tried_again) {
    struct soyc_templates templates = {0};
    struct soyc_page page = {0};
    uint32_t status = SOYC_DONE;
    size_t had = 0;
    enum { COMPILES, OPENS, PULLS, ENDS } step = COMPILES;
    int is_refused = 0;
    long before;
    granted = allocations;
    asked = 0;
    while (step != ENDS) {
        status = step == COMPILES ? compile(&templates, row->source, row->bundle)
                 : step == OPENS  ? open(&templates, &page, row->name, row->data)
                                  : pull(&page, 7);
        CHECK((templates.held != NULL) == (step != COMPILES || status == SOYC_DONE));
        CHECK((page.held != NULL) == (step == PULLS || (step == OPENS && status == SOYC_DONE)));
        if (status == SOYC_DONE || status == SOYC_MEMORY)
            CHECK(fault.err == 0 && fault.code == 0 && fault.subject == SOYC_NOWHERE && fault.message.end == 0);
        if (status == SOYC_MEMORY) {
            CHECK(!is_refused && (step != PULLS || given == 0));
            is_refused = 1;
            granted = AMPLE;
            if (!is_tried_again) break;
        } else if (status != SOYC_DONE || (step == PULLS && given == 0)) {
            step = ENDS;
        } else if (step != PULLS) {
            step = step == COMPILES ? OPENS : PULLS;
        } else {
            if (row->status == SOYC_DONE)
                CHECK(had + given <= strlen(row->text) && memcmp(room, row->text + had, given) == 0);
            had += given;
        }
    }
    if (step == ENDS) {
        CHECK(status == row->status && fault.subject == row->subject);
        CHECK(status == SOYC_DONE || is(fault.message, row->text));
        CHECK(had == (status == SOYC_DONE ? strlen(row->text) : status == SOYC_TOO_DEEP ? 101 : 0));
    }
    before = asked;
    status = page.held ? SOYC_DONE : SOYC_EMPTY;
    CHECK(soyc_close(&page) == status && page.held == NULL);
    status = templates.held ? SOYC_DONE : SOYC_EMPTY;
    CHECK(soyc_free(&templates) == status && templates.held == NULL);
    CHECK(is_all_given_back() && asked == before);
    granted = AMPLE;
    return !is_refused;
}

int main(int word_count, char **words) {
    size_t i;
    long most, count;
    slots();
    faults();
    many_pulls(word_count > 1 ? atol(words[1]) : 1000000);
    for (i = 0; i < sizeof rows / sizeof rows[0]; i++) {
        CHECK(runs(&rows[i], AMPLE, 0));
        most = asked;
        for (count = 0; count < most; count++) CHECK(!runs(&rows[i], count, 0) && !runs(&rows[i], count, 1));
        CHECK(runs(&rows[i], most, 0));
    }
    return 0;
}
