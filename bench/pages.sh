#!/usr/bin/env bash
# Pages a second of one process whose templates are compiled once, by the library and by four other engines. What is
# compared, the options and Debian's packages that it needs are in peers/pages.py.
set -eu
top=$(cd "$(dirname "$0")/.." && pwd)
make -s -C "$top/dist"
exec python3 -B "$top/bench/peers/pages.py" "$@"
