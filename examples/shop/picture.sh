#!/usr/bin/env bash
# Draws the two pages beside it, and the Hebrew one without the spans of its values, as Chromium shows them: page.en.png,
# page.he.png and page.he.without-isolation.png. Needs Debian's chromium and fonts-noto-core.
set -eu
here=$(cd "$(dirname "${BASH_SOURCE[0]}")" && pwd)
work=$(mktemp -d)
trap 'rm -rf "$work"' EXIT

# draw PAGE PICTURE: the page in a window that its text fills. Root alone needs --no-sandbox.
draw() {
    chromium --headless --no-sandbox --disable-gpu --hide-scrollbars --user-data-dir="$work/profile" \
        --window-size=400,416 --screenshot="$2" "file://$1" >"$work/log" 2>&1 || { cat "$work/log"; exit 1; }
}

draw "$here/page.en.html" "$here/page.en.png"
draw "$here/page.he.html" "$here/page.he.png"
# The templates have no spans of their own.
sed -E 's#<span dir="(ltr|rtl)">([^<]*)</span>#\2#g' "$here/page.he.html" >"$work/page.html"
draw "$work/page.html" "$here/page.he.without-isolation.png"
