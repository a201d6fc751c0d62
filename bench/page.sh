#!/usr/bin/env bash
# Renders a page of 8 MB with the program and prints MB a second, beside a copy of the same bytes, and the time of an
# empty page: the least of eleven runs each. Runs the program that is named, or that of ./soyc.
set -eu
. "$(dirname "$0")/setup.sh"
find_program "$@"

# template NAME BODY: a file of one template with this body.
template() {
    printf '{namespace b}\n{template m}\n{@param x: string}\n%s\n{/template}\n' "$2" >"$work/$1"
}

# prints COUNT: so many prints, each in a tag.
prints() {
    awk -v count="$1" 'BEGIN { for (i = 0; i < count; i++) printf "<p>{$x}</p>" }'
}

# data NAME TEXT COUNT: a value of so many times this text.
data() {
    awk -v text="$2" -v count="$3" 'BEGIN { printf "{\"x\": \""; for (i = 0; i < count; i++) printf "%s", text; print "\"}" }' >"$work/$1"
}

# least COMMAND..: the least microseconds of eleven runs, the output in a file.
least() {
    local best=0 from took
    for _ in 1 2 3 4 5 6 7 8 9 10 11; do
        from=${EPOCHREALTIME/./}
        "$@" >"$work/page"
        took=$((${EPOCHREALTIME/./} - from))
        if ((best == 0 || took < best)); then best=$took; fi
    done
    printf '%s' "$best"
}

row() {
    awk -v name="$1" -v bytes="$2" -v took="$3" 'BEGIN { printf "%-42s %9d bytes %8.1f ms %8.0f MB/s\n", name, bytes, took / 1000, bytes / took }'
}

template empty.soy '<p></p>'
template words.soy "$(prints 800)"
template short.soy "$(prints 80000)"
data words.json 'plain words in a row ' 480
data marked.json 'a < b, c and d, e f g' 460
data short.json 'some words, ' 5

took=$(least "$soyc" render b.m "$work/words.json" - "$work/empty.soy")
printf '%-42s %9d bytes %8.1f ms\n' 'an empty page' "$(stat -c %s "$work/page")" "$(awk -v t="$took" 'BEGIN { print t / 1000 }')"
for case in words.soy:words.json:'words' words.soy:marked.json:'one special in twenty' short.soy:short.json:'values of 60 characters'; do
    IFS=: read -r file json name <<<"$case"
    took=$(least "$soyc" render b.m "$work/$json" - "$work/$file")
    row "$name" "$(stat -c %s "$work/page")" "$took"
done
# items COUNT: a list of so many items, each with a link, two texts and a number.
items() {
    awk -v count="$1" 'BEGIN {
        printf "{\"items\": ["
        for (i = 0; i < count; i++)
            printf "%s{\"who\": \"tea\", \"text\": \"a<b R&D\", \"link\": \"https://e.example/?q=1&r=2\", \"n\": %d}", i ? "," : "", i % 200
        print "]}"
    }' >"$work/items.json"
}
printf '%s\n' '{namespace b}' '{template m}' '{@param items: list<[who: string, text: string, link: string, n: int]>}' \
    '<ul>{for $i in $items}<li><a href="{$i.link}">{$i.who}</a> {$i.text} <i title="{$i.text}">{$i.n}</i></li>{/for}</ul>' \
    '{/template}' >"$work/items.soy"
for count in 4000 20000 40000; do
    items "$count"
    took=$(least "$soyc" render b.m "$work/items.json" - "$work/items.soy")
    row "$count items of a list" "$(stat -c %s "$work/page")" "$took"
done
cp "$work/page" "$work/bytes"
took=$(least cat "$work/bytes")
row 'a copy of the last page' "$(stat -c %s "$work/page")" "$took"
