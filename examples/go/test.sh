#!/usr/bin/env bash
# Makes shop.go with the library and compares the two pages with those of the program and of examples/shop, and passes
# the tests of bindings/go. The first word names a program to compare with instead of ./soyc. On Debian: apt install
# golang-go
set -eu
unset CDPATH
top=$(cd "$(dirname "$0")/../.." && pwd)
soyc=${1-$top/soyc}
work=$(mktemp -d)
trap 'rm -rf "$work"' EXIT
export GOFLAGS=-mod=mod GOPROXY=off GOTOOLCHAIN=local GOCACHE=${GOCACHE-$work/cache}
make -s -C "$top/dist"

# page DATA BUNDLE: the program's page.
page() { (cd "$top/examples/shop" && "$soyc" render shop.list.main "$1" "$2" layout.soy list.soy product.soy); }

page data.json - >"$work/page.en.html"
page data.he.json he.json >"$work/page.he.html"
(cd "$top/bindings/go" && go vet . && go test .)
(cd "$top/examples/go" && go vet . && go build -o "$work/shop" .)
mkdir "$work/made"
"$work/shop" "$top/examples/shop" "$work/made"
for page in page.en.html page.he.html; do
    cmp "$work/made/$page" "$work/$page"
    cmp "$work/made/$page" "$top/examples/shop/$page"
done
echo 'examples/go: the pages of the library are those of the program'
