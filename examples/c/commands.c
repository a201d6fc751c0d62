/*
 * A test: each command of a list, a line each, by soyc_run, with those of its words that name a file that is there; and
 * its files by the calls with slots too, whose answers have to be those of soyc_run. Writes the words, both texts and
 * the status of each, to be compared with the program's. All bytes and rooms are blocks of exactly their length, so
 * that valgrind sees a byte that is read or written past them.
 *
 *     cd examples && commands <commands.txt
 */
#include <stdio.h>
#include <stdlib.h>
#include <string.h>

#include "soyc.h"

enum { MOST_WORDS = 80 };

#define CHECK(holds) \
    do { \
        if (!(holds)) { \
            fprintf(stderr, "commands: line %d: %s: %s\n", __LINE__, #holds, line); \
            exit(1); \
        } \
    } while (0)

/* The command: its line, its words, and the files that are there, `file_of` a word or -1. */
static char line[4096];
static uint8_t *bytes;
static size_t length, word_count, file_count;
static struct soyc_part words[MOST_WORDS];
static struct soyc_file files[MOST_WORDS];
static int file_of[MOST_WORDS];

/* What soyc_run answered. */
static uint32_t status;
static uint8_t *out, *err;
static struct soyc_lengths lengths;

static void *block_of(size_t size) {
    void *block = malloc(size);
    if (!block && size > 0) exit(1);
    return block;
}

static struct soyc_part put(const void *more, size_t more_length) {
    struct soyc_part part = {length, length + more_length};
    bytes = realloc(bytes, part.end + 1);
    if (!bytes) exit(1);
    memcpy(bytes + part.begin, more, more_length);
    length = part.end;
    return part;
}

/* Takes the words of the line, and the files that they name. */
static void read_command(void) {
    char text[4096], piece[65536], *word;
    uint8_t *exact;
    size_t count;
    bytes = NULL;
    length = word_count = file_count = 0;
    strcpy(text, line);
    for (word = strtok(text, " "); word; word = strtok(NULL, " ")) {
        FILE *from = fopen(word, "rb");
        CHECK(word_count < MOST_WORDS);
        file_of[word_count] = -1;
        words[word_count] = put(word, strlen(word));
        if (from) {
            struct soyc_file *file = &files[file_count];
            file->name = words[word_count];
            file->content.begin = length;
            while ((count = fread(piece, 1, sizeof piece, from)) > 0) put(piece, count);
            file->content.end = length;
            file_of[word_count] = (int)file_count++;
            fclose(from);
        }
        word_count++;
    }
    exact = block_of(length);
    memcpy(exact, bytes, length);
    free(bytes);
    bytes = exact;
}

/* Whether the text fits into the room, and then nothing after it is changed. */
static int is_put(const uint8_t *room, size_t size, size_t text_length) {
    size_t i;
    for (i = text_length; i < size; i++) CHECK(room[i] == '.');
    return text_length <= size;
}

/* Runs the command, and where a text doesn't fit once more with rooms that both just fit. */
static void run(void) {
    size_t out_size = 256, err_size = 64;
    uint32_t before = SOYC_DONE;
    int is_again;
    for (is_again = 0;; is_again = 1) {
        out = memset(block_of(out_size), '.', out_size);
        err = memset(block_of(err_size), '.', err_size);
        status = soyc_run(bytes, length, words, word_count, files, file_count, out, out_size, err, err_size, &lengths);
        CHECK(!is_again || (status == before && lengths.out == out_size && lengths.err == err_size));
        if (is_put(out, out_size, lengths.out) & is_put(err, err_size, lengths.err)) return;
        before = status;
        out_size = lengths.out;
        err_size = lengths.err;
        free(out);
        free(err);
    }
}

static int is_word(size_t at, const char *text) {
    size_t text_length = strlen(text);
    return at < word_count && words[at].end - words[at].begin == text_length &&
           memcmp(bytes + words[at].begin, text, text_length) == 0;
}

/* The line of a fault is that of soyc_run; of data it has another name. */
static void check_fault(const struct soyc_fault *fault, const uint8_t *text) {
    size_t skipped = fault->subject == SOYC_IN_DATA ? strlen("data") : 0;
    size_t left = fault->message.end - fault->message.begin - skipped;
    CHECK(fault->code > 0 && fault->subject != SOYC_NOWHERE && left < lengths.err);
    CHECK(skipped > 0 || left + 1 == lengths.err);
    CHECK(memcmp(text + fault->message.begin + skipped, err + lengths.err - 1 - left, left) == 0);
}

/* All pulls of a page, into rooms of this size. */
static uint32_t pull_all(struct soyc_page *page, size_t size, uint8_t *made, size_t *made_length) {
    struct soyc_fault fault;
    uint8_t *room = block_of(size), text[4096];
    uint32_t answer;
    size_t given;
    *made_length = 0;
    while ((answer = soyc_pull(page, room, size, &given, text, sizeof text, &fault)) == SOYC_DONE && given > 0) {
        CHECK(*made_length + given <= lengths.out);
        memcpy(made + *made_length, room, given);
        *made_length += given;
    }
    if (answer == SOYC_TOO_DEEP) check_fault(&fault, text);
    free(room);
    return answer;
}

/* Renders with compiled templates: the page and the status are those of soyc_run. */
static void render(struct soyc_templates *templates, int data, int is_same, size_t size) {
    struct soyc_page page = {0};
    struct soyc_fault fault;
    uint8_t text[4096], *made = block_of(lengths.out);
    struct soyc_part json = files[data].content;
    size_t made_length = 0;
    uint32_t answer = soyc_open(templates, bytes + words[1].begin, words[1].end - words[1].begin, bytes + json.begin,
                                json.end - json.begin, &page, text, sizeof text, &fault);
    if (answer == SOYC_REFUSED) {
        check_fault(&fault, text);
    } else if (is_same) {
        answer = pull_all(&page, size, made, &made_length);
        CHECK(made_length == lengths.out && memcmp(made, out, made_length) == 0);
    }
    CHECK(!is_same || answer == status);
    CHECK(soyc_close(&page) == (uint32_t)(answer == SOYC_REFUSED ? SOYC_EMPTY : SOYC_DONE));
    free(made);
}

/* The files by the calls with slots. The answers are compared where the command asks for no more than they do. */
static void use_slots(void) {
    static const struct {
        const char *word;
        size_t data, bundle, first;
        int is_same;
    } commands[] = {{"render", 2, 3, 4, 1}, {"check", 0, 1, 2, 1},   {"preview", 2, 3, 4, 0},
                    {"extract", 0, 0, 1, 0}, {"format", 0, 0, 1, 0}, {"play", 0, 2, 4, 0}};
    struct soyc_templates templates = {0};
    struct soyc_file sources[MOST_WORDS], *bundle = files;
    struct soyc_fault fault;
    uint8_t text[4096];
    uint32_t answer;
    size_t i, at, count = 0, bundles = 0;
    for (i = 0; i < 6 && !is_word(0, commands[i].word); i++) continue;
    if (i == 6) return;
    for (at = 1; at < word_count; at++) {
        int is_file = at == commands[i].data || at == commands[i].bundle || at >= commands[i].first;
        if (!is_file || is_word(at, "-")) continue;
        if (file_of[at] < 0) return;
        if (at == commands[i].bundle) bundle = &files[file_of[at]], bundles = 1;
        if (at >= commands[i].first) sources[count++] = files[file_of[at]];
    }
    answer = soyc_compile(bytes, length, sources, count, bundle, bundles, &templates, text, sizeof text, &fault);
    if (answer == SOYC_REFUSED && commands[i].is_same) check_fault(&fault, text);
    if (answer == SOYC_DONE && commands[i].data > 0) {
        render(&templates, file_of[commands[i].data], commands[i].is_same, 1);
        render(&templates, file_of[commands[i].data], commands[i].is_same, 4096);
    } else {
        CHECK(!commands[i].is_same || answer == status);
    }
    CHECK(soyc_free(&templates) == (uint32_t)(answer == SOYC_DONE ? SOYC_DONE : SOYC_EMPTY));
}

int main(void) {
    while (fgets(line, sizeof line, stdin)) {
        line[strcspn(line, "\n")] = 0;
        if (line[0] == '#' || line[0] == 0) continue;
        read_command();
        run();
        printf("%s\n", line);
        fwrite(out, 1, lengths.out, stdout);
        fwrite(err, 1, lengths.err, stdout);
        printf("%u\n", (unsigned)status);
        use_slots();
        free(bytes);
        free(out);
        free(err);
    }
    return 0;
}
