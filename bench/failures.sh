#!/usr/bin/env bash
# Lets each call to the system fail in turn, one a run, while the shop's Hebrew page is rendered and previewed, its files
# are checked, its messages listed, and a script of ten lines played: allocations, opens, reads and writes; and on a
# longer page each write. Then a full disk, a
# closed pipe and a closed stream. Prints how many were tried, and each run whose status isn't that of the failure or
# whose output is no prefix of the page; ends with 1 where there is one. Runs the program that is named, or ./soyc,
# which is built where it has to be. Needs cc and glibc.
set -u
. "$(dirname "$0")/setup.sh"
find_program "$@"
shop=$top/examples/shop
wrong=0

# Stands before the C library: of the calls that FAIL names, number AT fails, and the file REACHED is made.
cc -x c -shared -fPIC -O1 -o "$work/failing.so" - <<'C' || exit 2
#define _GNU_SOURCE
#include <errno.h>
#include <fcntl.h>
#include <stdlib.h>
#include <string.h>
#include <sys/syscall.h>
#include <unistd.h>
extern void *__libc_malloc(size_t);
extern void *__libc_realloc(void *, size_t);
static long left;
static const char *which = "";
__attribute__((constructor)) static void begin(void) {
    which = getenv("FAIL");
    left = atol(getenv("AT"));
}
static int fails(const char *call, int error) {
    if (strcmp(call, which) != 0 || --left != 0) return 0;
    syscall(SYS_close, syscall(SYS_openat, AT_FDCWD, getenv("REACHED"), O_CREAT | O_WRONLY, 0600));
    errno = error;
    return 1;
}
void *malloc(size_t n) { return fails("memory", ENOMEM) ? NULL : __libc_malloc(n); }
void *realloc(void *p, size_t n) { return fails("memory", ENOMEM) ? NULL : __libc_realloc(p, n); }
int openat(int at, const char *name, int flags, ...) {
    return fails("open", EACCES) ? -1 : (int)syscall(SYS_openat, at, name, flags, 0600);
}
int open(const char *name, int flags, ...) { return openat(AT_FDCWD, name, flags); }
int open64(const char *name, int flags, ...) { return openat(AT_FDCWD, name, flags); }
ssize_t read(int file, void *into, size_t n) { return fails("read", EIO) ? -1 : syscall(SYS_read, file, into, n); }
ssize_t write(int file, const void *from, size_t n) {
    if (fails("write", EIO)) return -1;
    return syscall(SYS_write, file, from, n > 1 && fails("short", 0) ? n / 2 : n);
}
C

# run WORDS..: the program with its output in files; the status.
run() { "$soyc" "$@" >"$work/out" 2>"$work/err"; }

# differs TEXT: says what a run did wrong.
differs() {
    wrong=$((wrong + 1))
    printf '%s: status %s, %s bytes, %s\n' "$1" "$status" "$(stat -c %s "$work/out")" "$(head -c 80 "$work/err")"
}

# said STATUS PAGE: whether the outputs are those of the status: the page, a prefix of it, or one line alone.
said() {
    case $1 in
        0) cmp -s "$work/out" "$2" ;;
        3) [[ ! -s $work/out && $(cat "$work/err") == *': read fault' ]] ;;
        *) [[ ! -s $work/err ]] && cmp -s -n "$(stat -c %s "$work/out")" "$work/out" "$2" ;;
    esac
}

# each CALL STATUS PAGE WORDS..: lets each call fail in turn, until none is left.
each() {
    local call=$1 wanted=$2 page=$3 at status
    shift 3
    for ((at = 1; ; at++)); do
        rm -f "$work/reached"
        LD_PRELOAD=$work/failing.so FAIL=$call AT=$at REACHED=$work/reached "$soyc" "$@" >"$work/out" 2>"$work/err"
        status=$?
        [[ -e $work/reached ]] || break
        if ((status != wanted)); then differs "$1, $call $at"; fi
        if ! said "$wanted" "$page"; then differs "$1, $call $at"; fi
    done
    printf '%s: %d times %s, to end with %d\n' "$1" $((at - 1)) "$call" "$wanted"
}

# once TEXT: whether a run ended with 4.
once() {
    status=$?
    if ((status == 4)); then printf '%s: status 4\n' "$1"; else differs "$1"; fi
}

files=("$shop/layout.soy" "$shop/list.soy" "$shop/product.soy")
render=(render shop.list.main "$shop/data.he.json" "$shop/he.json" "${files[@]}")
check=(check "$shop/he.json" "${files[@]}")
extract=(extract "${files[@]}")
preview=(preview shop.list.main "$shop/data.he.json" "$shop/he.json" "${files[@]}")
printf '%s\n' '{namespace b}' '{template m}' '{@param l: list<int>}' '{for $x in $l}<p title="{$x}">{$x}</p>{/for}' \
    '{/template}' >"$work/b.soy"
printf '%s\n' 'open b.m {"l":[1,2,3]}' 'open b.m {"l":[]}' 'pull 0 20' 'pull 1 9' 'publish 2' 'open b.m {"l":[7]}' \
    'pull 2 4096' 'close 0' 'pull 0 1' 'pull 2 4096' >"$work/script"
play=(play "$work/script" - - "$work/b.soy")
for words in render check extract preview play; do
    declare -n all=$words
    run "${all[@]}" || { status=$? && differs "$words"; }
    cp "$work/out" "$work/page"
    each memory 1 "$work/page" "${all[@]}"
    each open 3 "$work/page" "${all[@]}"
    each read 3 "$work/page" "${all[@]}"
    each write 4 "$work/page" "${all[@]}"
done

{ printf '{"l":[0'; seq -f ',%.0f' 1 20000; printf ']}'; } | tr -d '\n' >"$work/b.json"
long=(render b.m "$work/b.json" - "$work/b.soy")
run "${long[@]}" || { status=$? && differs 'long page'; }
cp "$work/out" "$work/page"
each write 4 "$work/page" "${long[@]}"
each short 0 "$work/page" "${long[@]}"

: >"$work/out"
"$soyc" "${render[@]}" >/dev/full 2>"$work/err"
once 'a full disk'
"$soyc" "${render[@]}" >&- 2>"$work/err"
once 'a closed stream'
mkfifo "$work/pipe"
(exec 3<"$work/pipe") &
"$soyc" "${long[@]}" 2>"$work/err" >"$work/pipe"
once 'a closed pipe'
"$soyc" render x.y "$work/b.json" - "$work/b.soy" 2>/dev/full >"$work/out"
once 'a refusal on a full disk'
printf '%d runs were wrong\n' "$wrong"
exit $((wrong != 0))
