#!/usr/bin/env bash
# Loads servers of pages with wrk and prints pages a second, the time that a page takes on the server's processors,
# which other work on the machine changes little, and the server's memory: the shop in two languages by the application
# examples/wsgi under gunicorn, alone and behind nginx, and the page of `gen` with 40 items by the library and by Jinja2
# under gunicorn, and by html/template under Go's net/http. Each page is compared with that of the program first.
#
# bench/servers.sh [SECONDS [WORKERS]]: so long each, 5, with so many processes, 2. The library is that in dist/out, or
# where the environment's SOYC_LIBRARY says. On Debian: apt install gunicorn wrk nginx-light python3-jinja2 golang-go
set -eu
. "$(dirname "$0")/setup.sh"
seconds=${1-5} workers=${2-2}
[[ ${SOYC_LIBRARY-} ]] || make -s -C "$top/dist"
servers=()
tidy() {
    for it in "${servers[@]}"; do kill "$it" 2>/dev/null || true; done
    wait
    rm -rf "$work"
}
trap tidy EXIT
ticks=$(getconf CLK_TCK)

# ---- servers

# The files of `gen`, and the server in Go.
make_files() {
    python3 -B - "$top/bench/peers" "$work" <<'PYTHON'
import pathlib, shutil, sys
sys.path.insert(0, sys.argv[1])
import compare, pages
peers, folder = map(pathlib.Path, sys.argv[1:])
compare.build_soyc(folder)
pages.write_files(folder, 7)
(folder / "go").mkdir()
for name in ["server.go", "items.go"]:
    shutil.copy(peers / name, folder / "go")
try:
    compare.go(folder, "build", "-o", "server", *sorted((folder / "go").glob("*.go")))
except (RuntimeError, OSError) as fault:
    print(f"html/template is left out: {fault}")
PYTHON
    "$work/soyc" render gen.main "$work/gen.json" "$work/gen.bundle" "$work/gen.soy" >"$work/gen.page"
}

# start FOLDER COMMAND..: a server in this folder.
start() {
    local folder=$1
    shift
    (cd "$folder" && exec "$@") >>"$work/log" 2>&1 &
    server=$!
    servers+=("$server")
}

stop_server() {
    kill "$1" 2>/dev/null || true
    wait "$1" 2>/dev/null || true
}

unicorn() { start "$1" gunicorn --workers "$workers" --bind "$2" --log-level warning "$3"; }

# get URL FILE: waits until the server answers, and writes the page into a file.
get() {
    python3 - "$1" "$2" <<'PYTHON'
import sys, time, urllib.error, urllib.request
for _ in range(600):
    try:
        with urllib.request.urlopen(sys.argv[1], timeout=60) as page, open(sys.argv[2], "wb") as file:
            file.write(page.read())
        break
    except urllib.error.HTTPError as fault:
        # (nginx may be there before those behind it)
        if fault.code != 502:
            raise
        time.sleep(0.2)
    except OSError:
        time.sleep(0.2)
else:
    sys.exit(f"servers: {sys.argv[1]} isn't answered")
PYTHON
}

# ---- what is measured

# processes PID: the process and its children.
processes() {
    echo "$1"
    pgrep -P "$1" || true
}

# busy PID: the ticks that its processes were on a processor.
busy() {
    local pid
    for pid in $(processes "$1"); do sed 's/.*) //' "/proc/$pid/stat"; done |
        awk '{ sum += $12 + $13 } END { print sum }'
}

# memory PID: the KB of its processes, of what several share the share of each.
memory() {
    local pid
    for pid in $(processes "$1"); do grep '^Pss:' "/proc/$pid/smaps_rollup"; done |
        awk '{ sum += $2 } END { print sum }'
}

# load NAME URL PID RIGHT [REFUSED]: the row of a server, if its page is the right one, of which html/template and
# Jinja2 write a refused link otherwise.
load() {
    local before after
    get "$2" "$work/got"
    sed "s/about:invalid#zSoyz/${5-about:invalid#zSoyz}/g" "$4" | cmp - "$work/got"
    before=$(busy "$3")
    wrk -t 1 -c "$((workers * 4))" -d "${seconds}s" --timeout 30s "$2" >"$work/wrk"
    after=$(busy "$3")
    awk -v name="$1" -v ticks="$((after - before))" -v rate="$ticks" -v memory="$(memory "$3")" '
        /requests in/ { count = $1 }
        /^Requests\/sec/ { second = $2 }
        /Non-2xx|Socket errors/ { bad = bad "; " $0 }
        END {
            printf "%-44s %7.0f pages a second, %6.3f ms of processors a page, %6.1f MB%s\n", name, second,
                ticks * 1000 / rate / (count ? count : 1), memory / 1024, bad
        }' "$work/wrk"
}

make_files
mkdir "$work/nginx"
shop=$top/examples/shop
unicorn "$top/examples/wsgi" "unix:$work/nginx/shop.socket" shop:application
behind=$server
start "$work/nginx" nginx -g 'user root;' -p "$work/nginx" -c "$top/examples/wsgi/nginx.conf"
nginx=$server
load 'the shop, gunicorn behind nginx, English' http://127.0.0.1:8081/ "$behind" "$shop/page.en.html"
load 'the shop, gunicorn behind nginx, Hebrew' http://127.0.0.1:8081/he "$behind" "$shop/page.he.html"
stop_server "$nginx"
stop_server "$behind"
unicorn "$top/examples/wsgi" 127.0.0.1:8082 shop:application
load 'the shop, gunicorn, English' http://127.0.0.1:8082/ "$server" "$shop/page.en.html"
load 'the shop, gunicorn, Hebrew' http://127.0.0.1:8082/he "$server" "$shop/page.he.html"
stop_server "$server"
export PYTHONPATH=$top/bench/peers PYTHONDONTWRITEBYTECODE=1
ENGINE=soyc unicorn "$work" 127.0.0.1:8083 wsgi_gen:application
load '40 items, soyc under gunicorn' http://127.0.0.1:8083/ "$server" "$work/gen.page"
stop_server "$server"
ENGINE=jinja2 unicorn "$work" 127.0.0.1:8084 wsgi_gen:application
load '40 items, Jinja2 under gunicorn' http://127.0.0.1:8084/ "$server" "$work/gen.page" 'javascript:1'
stop_server "$server"
if [[ -x $work/server ]]; then
    GOMAXPROCS=$workers start "$work" ./server 127.0.0.1:8085 gen.json gen.html
    load '40 items, html/template, net/http' http://127.0.0.1:8085/ "$server" "$work/gen.page" '#ZgotmplZ'
fi
