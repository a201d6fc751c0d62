/*
 * soyc as a library: pages from templates and data, without a process of its own.
 *
 * soyc_run does all that the program `soyc` does, with files that the caller has in memory, and keeps nothing between
 * two calls. Where many pages are made of the same templates, the other functions keep the compiled templates and a
 * page: soyc_compile once, then for each page soyc_open, soyc_pull until nothing comes, and soyc_close. No function
 * reads a file or writes to a stream, and there is no global state.
 *
 * All sizes, lengths and offsets are in bytes. Texts are UTF-8, without a byte 0 at the end.
 *
 *     cc program.c libsoyc.a
 *
 * dist/README.md says how the library is made, examples/c/shop.c and examples/c/pages.c are whole programs.
 */
#ifndef SOYC_H
#define SOYC_H

#include <stddef.h>
#include <stdint.h>

#ifdef __cplusplus
extern "C" {
#endif

/*
 * What the functions return. soyc_run returns the exit status of the program, or SOYC_MALFORMED; the comments say what
 * each means there, and those of the other functions what it means for them.
 *
 * The program's status 4, that a stream can't be written, never comes. A room that is too small is no error: see the
 * lengths.
 */
enum soyc_status {
    /* All is well: `out` has the whole answer, and `err` nothing. */
    SOYC_DONE = 0,
    /* Memory ran out. Nothing is in either room. */
    SOYC_MEMORY = 1,
    /* The words are no command: `err` has the text that shows the commands. */
    SOYC_USAGE = 2,
    /* A file that the words name isn't among the files: `err` has a line `NAME: read fault`. */
    SOYC_READ = 3,
    /* A template, the translations or the data have a fault, or there is no such template, a script's line is none, or
     * a page is too long to be shown: `err` has one line, as `page.soy:3:7: 4 Syntax`, and `out` nothing.
     * docs/refusals.md explains each number. */
    SOYC_REFUSED = 5,
    /* Templates called each other more than 100 deep: `out` has the page up to that call, of a `preview` nothing, and
     * `err` a line about it. */
    SOYC_TOO_DEEP = 6,
    /* A part of the call isn't within the bytes, or a word or the name of a file isn't UTF-8. Nothing is in either
     * room. */
    SOYC_MALFORMED = 7,
    /* Not of soyc_run: the templates or the page of the call hold nothing, or the slot holds the other of the two. No
     * slot and no room is changed. */
    SOYC_EMPTY = 8,
    /* Not of soyc_run: the slot that the call would fill holds something. No slot and no room is changed. */
    SOYC_FULL = 9
};

/* A part of `bytes`: from the offset `begin` up to the offset `end`, without the byte at `end`. */
struct soyc_part {
    size_t begin;
    size_t end;
};

/* A file: its name, as the words name it, and its content. */
struct soyc_file {
    struct soyc_part name;
    struct soyc_part content;
};

/* How long the whole texts for the two rooms are, whether or not they fit. */
struct soyc_lengths {
    size_t out;
    size_t err;
};

/*
 * Runs a command over files in memory.
 *
 * bytes           what the words, the names and the contents are parts of, in any order; parts may overlap.
 * words           the words of the command, in order, without the program's name: "render", "shop.list.main",
 *                 "data.json", "-", "list.soy", say. README.md lists the commands.
 * files           the files; of two files of one name the first counts. A name is compared byte by byte with the words:
 *                 it needn't be a path, and no file of the system is read.
 * out, err        two rooms, which are buffers of the caller. What the program would write to standard output is put at
 *                 the beginning of `out`, and what it would write to standard error at the beginning of `err`, as much
 *                 of each as fits. Bytes of a room after its text are unchanged.
 * lengths         is set to the lengths of both whole texts, and to 0 and 0 at SOYC_MEMORY and SOYC_MALFORMED. Where
 *                 `lengths->out > out_room`, `out` has only the first `out_room` bytes: call again with the same
 *                 arguments and a room of at least `lengths->out`. The answer is the same at each call, unless memory
 *                 runs out. The line in `err` is seldom longer than the longest name of a file by more than 100 bytes.
 *
 * Ownership: everything belongs to the caller, before and after. The function takes what memory it needs by malloc
 * (docs/security.md, "Hostile input", has how much), and has given it back when it returns.
 *
 * What the caller must keep, which nothing checks:
 * - No pointer is NULL, also where its count is 0; each is aligned for its type and leads to as many items as its count
 *   says, together less than 2^63 bytes.
 * - During a call nothing else writes `bytes`, `words` or `files`, and nothing else reads or writes `out`, `err` and
 *   `lengths`; these three overlap neither each other nor what is read.
 * - The thread has 1 MiB of its stack left, which no call needs in full.
 * - malloc, realloc and free are of one allocator, and align as those of the C library do.
 * - No call from a signal handler, or from the forked child of a process that has several threads.
 *
 * Threads: calls may run at the same time in several threads.
 */
uint32_t soyc_run(const uint8_t *bytes, size_t bytes_length,
                  const struct soyc_part *words, size_t word_count,
                  const struct soyc_file *files, size_t file_count,
                  uint8_t *out, size_t out_room,
                  uint8_t *err, size_t err_room,
                  struct soyc_lengths *lengths);

/*
 * ---- Templates and pages
 */

/*
 * A slot of the caller's for compiled templates, and one for a page. Begin with all bytes 0, as by
 * `struct soyc_page page = {0}`: it is then empty, with `held` NULL. soyc_compile fills the first and soyc_open the
 * second; soyc_free and soyc_close empty them, and then they can be filled again.
 *
 * Only the functions here write `held` or dereference it. A slot may be moved to another address between calls, as by
 * memcpy, if only one copy is used from then on: of two copies the second would lead to memory that is given back.
 */
struct soyc_templates {
    void *held;
};

struct soyc_page {
    void *held;
};

/* Of what a fault is. */
enum soyc_subject {
    /* No fault. */
    SOYC_NOWHERE = 0,
    /* A template file: `file`, `line` and `column` say where. */
    SOYC_IN_FILE = 1,
    /* The translations: `pointer` says where. */
    SOYC_IN_BUNDLE = 2,
    /* The name of the template that is to be opened. */
    SOYC_IN_NAME = 3,
    /* The data: `pointer` says where. */
    SOYC_IN_DATA = 4
};

/*
 * The fault of a call that answers SOYC_REFUSED or SOYC_TOO_DEEP; at every other status all of it is 0.
 *
 * The four parts are parts of the whole text for `err`, in bytes from its beginning, whether or not they fit into the
 * room: each ends within that text, and not before it begins. A part that isn't there begins and ends at 0, and no part
 * that is there ends at 0; at a fault there are all but perhaps the pointer.
 */
struct soyc_fault {
    /* The number of the refusal, 1 to 31, which docs/refusals.md explains. */
    uint32_t code;
    /* One of soyc_subject. */
    uint32_t subject;
    /* The index among the files of soyc_compile, from 0; also 0 where `subject` is no template file. */
    size_t file;
    /* The line and the character on it, each counted from 1; both 0 where the fault isn't in a template file. */
    uint64_t line;
    uint64_t column;
    /* How long the whole text for `err` is: the line, a line feed, and the detail. Where it is more than the room,
     * parts may lie past the room: call again with a larger one. A slot that wasn't filled is still empty then, and a
     * pull that stops at a call stops there again. */
    size_t err;
    /* The line for people, as soyc_run puts it: `page.soy:3:7: 4 Syntax`, without its line feed. */
    struct soyc_part message;
    /* In the line, the word of the refusal: `Syntax`. */
    struct soyc_part word;
    /* In the line, the JSON pointer (RFC 6901) of a fault of translations or data; empty is the whole of them. There is
     * none of another fault, nor where the translations or the data are too large. */
    struct soyc_part pointer;
    /* After the line: what the fault is about, one name, type or place of a value in a page, or two with a line feed
     * between them; empty where the fault is about none. For 8 Type these are the types, one or two: those of the
     * operands, from left to right, or the one that the parameter has and the one that is passed; none where a name is
     * no type. For 12 Mixed they are the two that differ, each the place of a value, as `UriStart`, or the word of the
     * refusal that a value would get. */
    struct soyc_part detail;
};

/*
 * Compiles template files, under translations or none.
 *
 * bytes, files    the files: a name only stands in the line of a fault, and of two files of one name both are compiled.
 *                 1 to 64, each of at most 1 MiB.
 * bundles         the translations, of at most 4 MiB, whose name, too, only stands in the line of a fault;
 *                 `bundle_count` is 1, or 0 for the language of the source.
 * templates       is filled at SOYC_DONE, and unchanged at every other status.
 * err             a room for the text of a fault, of which as much as fits is put at its beginning; bytes after it are
 *                 unchanged.
 * fault           is set.
 *
 * Returns
 * SOYC_DONE       The templates are compiled.
 * SOYC_MEMORY     Memory ran out.
 * SOYC_USAGE      There are no files, as for a `check` without any, or more than 64, or more than one bundle.
 * SOYC_REFUSED    The first fault of the files and the translations, as for the command `check`: the same line. A file
 *                 over 1 MiB, or translations over 4 MiB, are refused with 2.
 * SOYC_MALFORMED  A part isn't within the bytes, or a name isn't UTF-8.
 * SOYC_FULL       `templates` isn't empty.
 *
 * Where several apply, the first of FULL, USAGE, MALFORMED, REFUSED.
 */
uint32_t soyc_compile(const uint8_t *bytes, size_t bytes_length,
                      const struct soyc_file *files, size_t file_count,
                      const struct soyc_file *bundles, size_t bundle_count,
                      struct soyc_templates *templates,
                      uint8_t *err, size_t err_room,
                      struct soyc_fault *fault);

/*
 * Opens a page: a template with its data. Nothing of the page is made yet.
 *
 * templates       compiled templates, which the page shares: they may be freed before the page is closed.
 * name            the full name of the template, as `shop.list.main`.
 * json            the data, as JSON, of at most 4 MiB. The name of the data in the line of a fault is `data`.
 * page            is filled at SOYC_DONE, and unchanged at every other status.
 * err, fault      as for soyc_compile.
 *
 * Returns
 * SOYC_DONE       The page is open.
 * SOYC_MEMORY     Memory ran out.
 * SOYC_REFUSED    No public template of kind html or text has the name, or the data are too large or have a fault.
 * SOYC_MALFORMED  The name isn't UTF-8.
 * SOYC_EMPTY      `templates` is empty, or its slot holds a page.
 * SOYC_FULL       `page` isn't empty.
 *
 * Where several apply, the first of EMPTY, FULL, MALFORMED, REFUSED; of refusals 2, then 29, then 27 or 28.
 */
uint32_t soyc_open(struct soyc_templates *templates,
                   const uint8_t *name, size_t name_length,
                   const uint8_t *json, size_t json_length,
                   struct soyc_page *page,
                   uint8_t *err, size_t err_room,
                   struct soyc_fault *fault);

/*
 * Gives the next bytes of a page. All that the pulls give, joined, is what soyc_run puts into `out` for a `render`.
 *
 * page            an open page.
 * room            is given the next bytes, from its beginning on; what stands after them may have changed, up to
 *                 its end. Its length may differ from call to call, and 4096 is a good one. A character may begin in
 *                 one pull and end in the next.
 * given           is set to how many bytes are given, at least 1 where something is left and the room isn't empty, and
 *                 perhaps fewer than fit; at a status other than SOYC_DONE to 0.
 * err, fault      as for soyc_compile.
 *
 * Returns
 * SOYC_DONE       `*given` bytes are given. None into a room of at least 1 byte: the page has ended, and further pulls
 *                 give none, either. None into a room of 0 bytes says nothing.
 * SOYC_MEMORY     Memory ran out. Nothing is lost: the next pull gives the same bytes, if there is memory.
 * SOYC_TOO_DEEP   Templates called each other more than 100 deep. The page ends here, at the call of which the line
 *                 says where, and further pulls answer the same.
 * SOYC_EMPTY      `page` is empty, since it was never opened or is closed, or its slot holds templates.
 */
uint32_t soyc_pull(struct soyc_page *page,
                   uint8_t *room, size_t room_length,
                   size_t *given,
                   uint8_t *err, size_t err_room,
                   struct soyc_fault *fault);

/*
 * Closes a page, whether or not it has ended, and gives back its memory. Takes no memory.
 *
 * Returns
 * SOYC_DONE       The page is closed, and its slot is empty.
 * SOYC_EMPTY      The page is empty, as after a first soyc_close, or its slot holds templates. Nothing is changed.
 */
uint32_t soyc_close(struct soyc_page *page);

/*
 * Frees templates. Their memory is given back once no page that was opened with them is open any more; such pages can
 * be pulled on. Takes no memory.
 *
 * Returns
 * SOYC_DONE       The templates are freed, and their slot is empty.
 * SOYC_EMPTY      The templates are empty, as after a first soyc_free, or their slot holds a page. Nothing is changed.
 */
uint32_t soyc_free(struct soyc_templates *templates);

/*
 * Ownership: what a call is given belongs to the caller, and may be changed or freed once the call returns:
 * soyc_compile copies the files, soyc_open reads the data. Templates that are compiled and pages that are open own
 * memory of malloc, until soyc_free and soyc_close.
 *
 * What the caller must keep, which nothing checks, besides what soyc_run asks:
 * - A slot begins with all bytes 0, only these functions write it, and of copies of it only one is used.
 * - The slots of a call, its rooms, `given` and `fault` overlap nothing else of the call.
 * - No pointer is NULL, also those to slots, and to rooms of 0 bytes.
 * - A call is left only by its return: no longjmp, exception or thread cancellation out of the caller's malloc. While a
 *   call works on a slot, the slot is empty.
 *
 * Threads: templates and the pages that were opened with them, open or not, form a family: its calls are made by one
 * thread at a time, and where another thread goes on, by a lock or the like. Different families may be used at the same
 * time. soyc_open, too, writes the slot of the templates while it runs. Nothing that a family owns belongs to a thread.
 */

#ifdef __cplusplus
}
#endif

#endif
