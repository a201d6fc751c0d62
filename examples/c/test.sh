#!/usr/bin/env bash
# Makes shop.c and pages.c with the library, by libsoyc.a and by libsoyc.so, and compares their pages with those of the
# program and of examples/shop; lets each allocation of a page and of each kind of refusal fail in turn, by memory.c
# and, with slots, by handles.c, which tries what else the calls with slots answer; and compares the answers to all
# examples, by commands.c, with those of the program. All of it under valgrind, if there is one. The first word names a
# program to compare with instead of ./soyc.
set -euo pipefail
unset CDPATH
top=$(cd "$(dirname "$0")/../.." && pwd)
soyc=${1-$top/soyc}
work=$(mktemp -d)
trap 'rm -rf "$work"' EXIT
make -s -C "$top/dist"

# page DATA BUNDLE: the program's page.
page() { (cd "$top/examples/shop" && "$soyc" render shop.list.main "$1" "$2" layout.soy list.soy product.soy); }

# made PROGRAM LIBRARY..: the program with the library.
made() { cc -std=c99 -Wall -Wextra -Werror -O2 -I"$top/include" -o "$work/$1" "$top/examples/c/$1.c" "${@:2}"; }

page data.json - >"$work/page.en.html"
page data.he.json he.json >"$work/page.he.html"
for it in "$top/dist/out/libsoyc.a" "-L$top/dist/out -lsoyc -Wl,-rpath,$top/dist/out"; do
    for program in shop pages; do
        # (the second has several words)
        # shellcheck disable=SC2086
        made "$program" $it
        mkdir -p "$work/made"
        "$work/$program" "$top/examples/shop" "$work/made"
        for page in page.en.html page.he.html; do
            cmp "$work/made/$page" "$work/$page"
            cmp "$work/made/$page" "$top/examples/shop/$page"
        done
        rm -r "$work/made"
    done
done
made memory "$top/dist/out/libsoyc.a" -Wl,--wrap=malloc,--wrap=realloc
made handles "$top/dist/out/libsoyc.a" -Wl,--wrap=malloc,--wrap=realloc,--wrap=free
made commands "$top/dist/out/libsoyc.a"
"$work/memory"
"$work/handles"

watched=()
if command -v valgrind >"$work/log"; then
    watched=(valgrind -q --leak-check=full --error-exitcode=1)
    mkdir -p "$work/made"
    "${watched[@]}" "$work/shop" "$top/examples/shop" "$work/made"
    "${watched[@]}" "$work/pages" "$top/examples/shop" "$work/made"
    "${watched[@]}" "$work/memory"
    "${watched[@]}" "$work/handles" 2000
else
    echo 'examples/c: there is no valgrind, which would see leaks, and bytes read or written past a block'
fi

# program_answers: for each command of a list, its words, what the program writes, and its status.
program_answers() {
    local words status
    while read -ra words; do
        if ((${#words[@]} == 0)) || [[ ${words[0]} == '#'* ]]; then continue; fi
        status=0
        echo "${words[*]}"
        "$soyc" "${words[@]}" 2>"$work/err" </dev/null || status=$?
        cat "$work/err"
        echo "$status"
    done
}

cd "$top/examples"
# (with a file that is too large to keep)
head -c 1048577 /dev/zero | tr '\0' x >"$work/large.soy"
{ cat commands.txt && echo "check - $work/large.soy"; } >"$work/commands.txt"
program_answers <"$work/commands.txt" >"$work/answers"
"${watched[@]}" "$work/commands" <"$work/commands.txt" | diff "$work/answers" - || {
    echo "examples/c: by commands.c the examples aren't answered as by the program, or valgrind saw a fault"
    exit 1
}
echo 'examples/c: the pages and refusals of the library are those of the program'
