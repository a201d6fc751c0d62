#!/usr/bin/env bash
# Runs the program as a whole process: `gen 7`, pages of 4,000, 20,000 and 60,000 items, and a check of 64 files of 1 MiB
# each. Prints the least time of five runs, the peak of memory, and how many times longer a run takes than a copy of the
# same bytes: of the page, or of the files. Runs the program that is named, or ./soyc, which is built where it has to be.
set -eu
. "$(dirname "$0")/setup.sh"
find_program "$@"

# least COMMAND..: the least microseconds of five runs, the output in a file.
least() {
    local best=0 from took
    for _ in 1 2 3 4 5; do
        from=${EPOCHREALTIME/./}
        "$@" >"$work/out"
        took=$((${EPOCHREALTIME/./} - from))
        if ((best == 0 || took < best)); then best=$took; fi
    done
    printf '%s' "$best"
}

# peak COMMAND..: its greatest resident memory in KB.
peak() {
    /usr/bin/time -f %M -o "$work/peak" "$@" >"$work/out"
    cat "$work/peak"
}

# row NAME COMMAND.. -- FILE..: the command's figures beside those of a copy of the files.
row() {
    local name=$1 took copied memory bytes
    local -a command=()
    shift
    while [[ $1 != -- ]]; do
        command+=("$1")
        shift
    done
    shift
    took=$(least "${command[@]}")
    memory=$(peak "${command[@]}")
    copied=$(least cat "$@")
    bytes=$(cat "$@" | wc -c)
    awk -v name="$name" -v bytes="$bytes" -v took="$took" -v memory="$memory" -v copied="$copied" 'BEGIN {
        printf "%-26s %9d bytes %9.1f ms %7.1f MB/s %8.1f MB peak %8.1f times a copy\n",
            name, bytes, took / 1000, bytes / took, memory / 1024, took / copied
    }'
}

# source NUMBER: a file of 1 MiB, of templates with text, tags, values, a branch and a message, filled up by a comment.
source_file() {
    awk -v number="$1" 'BEGIN {
        text = sprintf("{namespace big.f%d}\n", number)
        for (k = 0; ; k++) {
            next_one = sprintf("\n{template t%d}\n  {@param who: string}\n  {@param n: int}\n  <h2 id=\"t%d\">A heading</h2>\n  " \
                "<p class=\"words\">Some words for {$who}, and a <a href=\"/p?who={$who}\">link</a>.</p>\n  {if $n > %d}\n    " \
                "<p>{msg desc=\"How many\"}There are {$n} of <b>them</b> in %d.{/msg}</p>\n  {/if}\n{/template}\n", k, k, k, k % 50)
            if (length(text) + length(chunk) + length(next_one) > 1048500) break
            chunk = chunk next_one
            if (length(chunk) > 30000) { text = text chunk; chunk = "" }
        }
        text = text chunk "/*"
        printf "%s", text
        for (i = length(text) + 2; i < 1048576; i++) printf " "
        printf "*/"
    }'
}

if "$soyc" gen 7 >"$work/summary" 2>"$work/refusal"; then
    head -c "$(awk '$1 == "bytes" { print $2 }' "$work/summary")" /dev/zero >"$work/bytes"
    row 'gen 7' "$soyc" gen 7 -- "$work/bytes"
else
    printf 'gen 7: %s\n' "$(cat "$work/refusal")"
fi

for count in 4000 20000 60000; do
    items "$count"
    words=(render b.m "$work/items.json" - "$work/items.soy")
    "$soyc" "${words[@]}" >"$work/page"
    row "$count items of a list" "$soyc" "${words[@]}" -- "$work/page"
done

files=()
for ((number = 0; number < 64; number++)); do
    files+=("$work/$number.soy")
    source_file "$number" >"$work/$number.soy"
done
row 'a check of 64 files' "$soyc" check - "${files[@]}" -- "${files[@]}"
