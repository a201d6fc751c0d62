// Starts the program that was made of dist/ earlier, if it is current: if each file that it's made of has the size, and
// the time of its last change of any kind, that it had then. Otherwise it starts .ci/start, which makes it again. The
// first word is the folder of the checkout; the others are the program's. (C, since a page waits for this: it looks at
// 2,000 files in the time in which a shell and find begin.)
#include <fcntl.h>
#include <stdio.h>
#include <stdlib.h>
#include <string.h>
#include <sys/stat.h>
#include <unistd.h>

// The bytes of a file and a NUL, or NULL where it can't be read.
static char *text_of(const char *path, size_t *length) {
    struct stat st;
    int file = open(path, O_RDONLY);
    if (file < 0 || fstat(file, &st) != 0) return NULL;
    char *text = malloc((size_t)st.st_size + 1);
    ssize_t got = text == NULL ? -1 : read(file, text, (size_t)st.st_size);
    close(file);
    if (got != st.st_size) return NULL;
    text[got] = 0;
    *length = (size_t)got;
    return text;
}

// Whether each file that is named, up to a NUL each, has the line of size and time that was noted, as find writes them
// by `%s %C@\n`.
static int is_current(void) {
    size_t names_length, times_length;
    char *names = text_of("dist/out/soyc.files", &names_length), *times = text_of("dist/out/soyc.times", &times_length);
    if (names == NULL || times == NULL || names_length == 0 || access("dist/out/soyc.sums", R_OK) != 0) return 0;
    char *noted = times;
    for (char *name = names; name < names + names_length; name += strlen(name) + 1) {
        struct stat st;
        char line[80];
        if (lstat(name, &st) != 0) return 0;
        int size = snprintf(line, sizeof line, "%lld %lld.%09ld0\n", (long long)st.st_size,
                            (long long)st.st_ctim.tv_sec, st.st_ctim.tv_nsec);
        if (strncmp(noted, line, (size_t)size) != 0) return 0;
        noted += size;
    }
    return *noted == 0;
}

int main(int count, char **words) {
    if (count < 2) return 127;
    int caller = open(".", O_RDONLY | O_DIRECTORY), is_there = chdir(words[1]) == 0;
    char program[4096], begin[4096];
    int fits = snprintf(program, sizeof program, "%s/dist/out/soyc", words[1]) < (int)sizeof program;
    fits = snprintf(begin, sizeof begin, "%s/.ci/start", words[1]) < (int)sizeof begin && fits;
    int current = is_there && fits && is_current();
    if (caller < 0 || fchdir(caller) != 0 || !fits) return 127;
    close(caller);
    words[1] = current ? program : begin;
    execv(words[1], words + 1);
    perror("soyc");
    return 127;
}
