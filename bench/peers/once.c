/* once OUTPUT COMMAND..: runs the command once, with its standard output in the file OUTPUT or, if that is `-`, in a
   pipe that is read to its end, and prints the microseconds of the whole process, those on a processor, the peak of
   memory in KB, and the microseconds to the first byte (0 for a file). A program of its own since the peak of a process
   is at least that of the one that starts it. */
#include <fcntl.h>
#include <stdio.h>
#include <stdlib.h>
#include <sys/resource.h>
#include <sys/wait.h>
#include <time.h>
#include <unistd.h>

static double now(void) {
    struct timespec t;
    clock_gettime(CLOCK_MONOTONIC, &t);
    return t.tv_sec * 1e6 + t.tv_nsec / 1e3;
}

static double micros(struct timeval t) { return t.tv_sec * 1e6 + t.tv_usec; }

int main(int count, char **words) {
    static char room[1 << 16];
    int ends[2] = {-1, -1}, piped, status;
    struct rusage used;
    if (count < 3) return 2;
    piped = words[1][0] == '-' && words[1][1] == 0;
    if (piped ? pipe(ends) : (ends[1] = open(words[1], O_WRONLY | O_CREAT | O_TRUNC, 0644)) < 0) return 3;
    double from = now(), first = 0;
    pid_t child = fork();
    if (child == 0) {
        dup2(ends[1], 1);
        close(ends[0]);
        close(ends[1]);
        execv(words[2], words + 2);
        _exit(127);
    }
    close(ends[1]);
    if (piped)
        while (read(ends[0], room, sizeof room) > 0)
            if (first == 0) first = now() - from;
    if (wait4(child, &status, 0, &used) != child) return 3;
    printf("%f %f %ld %f\n", now() - from, micros(used.ru_utime) + micros(used.ru_stime), used.ru_maxrss, first);
    return WIFEXITED(status) ? WEXITSTATUS(status) : 1;
}
