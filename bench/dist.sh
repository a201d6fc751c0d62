#!/usr/bin/env bash
# Renders a list of 40,000 items by the program that cc makes of dist/ and by the proved one, in turn, and prints the
# least time of fifteen runs of each and how far they are apart; then the least time of fifty starts of ./soyc, and of
# the program that it runs. The programs are those of ./soyc and of ./soyc --prove, or the two that are named.
set -eu
. "$(dirname "$0")/setup.sh"
made=${1-$top/dist/out/soyc} proved=${2-$top/crates/soyc/out/soyc}

# keeps_least NAME COMMAND..: the least microseconds of this command so far, in a variable.
keeps_least() {
    local from took
    local -n least=$1
    shift
    from=${EPOCHREALTIME/./}
    "$@" >"$work/out"
    took=$((${EPOCHREALTIME/./} - from))
    if ((least == 0 || took < least)); then least=$took; fi
}

items 40000
words=(render b.m "$work/items.json" - "$work/items.soy")
by_made=0 by_proved=0 start=0 whole_start=0
for _ in {1..15}; do
    keeps_least by_made "$made" "${words[@]}"
    keeps_least by_proved "$proved" "${words[@]}"
done
awk -v made="$by_made" -v proved="$by_proved" 'BEGIN {
    printf "40000 items: %.1f ms by what cc makes of dist/, %.1f ms by the proved program, %+.1f percent\n",
        made / 1000, proved / 1000, 100 * (made - proved) / proved
}'
hello=(check - "$top/examples/hello/page.soy")
"$top/soyc" "${hello[@]}" >"$work/out"
for _ in {1..50}; do
    keeps_least start "$made" "${hello[@]}"
    keeps_least whole_start "$top/soyc" "${hello[@]}"
done
awk -v start="$start" -v whole="$whole_start" 'BEGIN {
    printf "a start: %.1f ms by ./soyc, %.1f ms of the program alone\n", whole / 1000, start / 1000
}'
