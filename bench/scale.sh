#!/usr/bin/env bash
# Renders many pages of the shop in two languages on three hosts, by examples/scale, and checks each against the page
# that is rendered here: with a kill in the middle, after which the same command goes on; with 1, 2 and 4 jobs at once,
# in pages a second, the best of ROUNDS, by the program and by the library; and with a host that goes away in the
# middle. Then what a page and a job take by themselves. The hosts are network namespaces of this machine, each with an
# address on a bridge, an sshd and a home of its own; so they share its processors.
#
# bench/scale.sh [PAGES [SHARD [ROUNDS [PROGRAM]]]], as root: so many pages, in shards of so many each. The library is
# that in dist/out, or where the environment's SOYC_LIBRARY says. On Debian: apt install parallel rsync openssh-server
# iproute2
set -eu
. "$(dirname "$0")/setup.sh"
pages=${1-3000} shard_pages=${2-250} rounds=${3-3}
find_program "${@:4}"
library=${SOYC_LIBRARY:-$top/dist/out/libsoyc.so}
[[ ${SOYC_LIBRARY-} ]] || make -s -C "$top/dist" libsoyc.so
network=10.77.42

# ---- hosts

namespace() { echo "soyc-host-$1"; }

# Ends what was started in the namespaces, and takes them away.
tidy() {
    local n pid
    for n in 1 2 3; do
        ssh -F "$work/ssh_config" -O exit "$network.$n" 2>/dev/null || true
        for pid in $(ip netns pids "$(namespace "$n")" 2>/dev/null); do kill "$pid" 2>/dev/null || true; done
        ip netns del "$(namespace "$n")" 2>/dev/null || true
    done
    ip link del soyc-bridge 2>/dev/null || true
    rm -rf "$work"
}

# Keys for this run, and the settings of sshd and ssh.
make_keys() {
    ssh-keygen -q -t ed25519 -N '' -f "$work/host_key"
    ssh-keygen -q -t ed25519 -N '' -f "$work/key"
    cp "$work/key.pub" "$work/authorized_keys"
    mkdir -p /run/sshd
    cat >"$work/sshd_config" <<CONFIG
HostKey $work/host_key
AuthorizedKeysFile $work/authorized_keys
PidFile none
UsePAM no
StrictModes no
PasswordAuthentication no
MaxSessions 100
CONFIG
    cat >"$work/ssh_config" <<CONFIG
Host $network.*
    User root
    IdentityFile $work/key
    IdentitiesOnly yes
    UserKnownHostsFile $work/known_hosts
    StrictHostKeyChecking yes
    LogLevel ERROR
    ControlMaster auto
    ControlPath $work/%h
    ControlPersist 60
    ConnectTimeout 5
    ServerAliveInterval 2
    ServerAliveCountMax 2
CONFIG
    export PARALLEL_SSH="ssh -F $work/ssh_config"
}

# start_host N: a namespace with the address N, and sshd in it, with an empty home of its own.
start_host() {
    local name
    name=$(namespace "$1")
    ip netns add "$name"
    ip link add "soyc-veth-$1" type veth peer name eth0 netns "$name"
    ip link set "soyc-veth-$1" master soyc-bridge up
    ip -n "$name" address add "$network.$1/24" dev eth0
    ip -n "$name" link set lo up
    ip -n "$name" link set eth0 up
    # (the script of the inner shell has no variables of this one)
    # shellcheck disable=SC2016
    ip netns exec "$name" unshare --mount sh -c \
        'cd / && mount -t tmpfs home ~root && exec /usr/sbin/sshd -f "$1/sshd_config"' sh "$work"
    echo "$network.$1 $(cut -d' ' -f1,2 "$work/host_key.pub")" >>"$work/known_hosts"
}

# lose_host N: the host's processes end, and nothing gets through to it.
lose_host() {
    local pid
    ip link set "soyc-veth-$1" down
    for pid in $(ip netns pids "$(namespace "$1")"); do kill -9 "$pid" 2>/dev/null || true; done
}

# hosts JOBS..: the file that lists the first hosts with so many jobs each, and a connection to each, which all that is
# done there shares.
hosts() {
    local n=0 jobs
    for jobs in "$@"; do echo "$jobs/$network.$((n += 1))"; done >"$work/hosts"
    for ((; n > 0; n--)); do ssh -F "$work/ssh_config" "$network.$n" true </dev/null >"$work/log" 2>&1; done
}

# ---- pages

# The folder of the run: the program, the files that it needs and the shards; and the pages as rendered here.
make_pages() {
    mkdir -p "$work/run/shards" "$work/right"
    cp "$top"/examples/shop/*.soy "$top/examples/shop/he.json" "$work/run"
    cd "$work/run"
    by_program
    en=$(tr -d '\n' <"$top/examples/shop/data.json") he=$(tr -d '\n' <"$top/examples/shop/data.he.json") \
        awk -v pages="$pages" -v each="$shard_pages" 'BEGIN {
            for (i = 0; i < pages; i++) {
                data = ENVIRON[i % 2 ? "he" : "en"]
                # (the data of one page don\x27t fit its template)
                sub(/"cents": 2500/, "\"cents\": " (i == 7 ? "\"dear\"" : i), data)
                printf "%07d.html\tshop.list.main\t%s\t%s\n", i, i % 2 ? "he.json" : "-", data \
                    >sprintf("shards/%05d.tsv", i / each)
            }
        }'
    shards=$(find shards -name '*.tsv' | wc -l)
    cp -r "$work/run" "$work/local"
    cd "$work/local"
    { time for it in shards/*.tsv; do ./render "$it"; done; } 2>"$work/local.times"
    for it in shards/*.tar; do tar -xf "$it" -C "$work/right"; done
    cd "$work/run"
}

# The job and what it needs, besides templates and bundles.
by_program() {
    rm -f soyc.py libsoyc.so
    cp "$soyc" soyc
    cp "$top/examples/scale/render" render
}

by_library() {
    rm -f soyc
    cp "$library" libsoyc.so
    cp "$top/bindings/python/soyc.py" soyc.py
    cp "$top/examples/scale/render.py" render
}

# Nothing is done yet.
begin_anew() { rm -f jobs.log shards/*.tar; }

# check WHAT: every page is there and right, one was refused, and no shard was done twice.
check() {
    local it
    mkdir "$work/got"
    for it in shards/*.tar; do tar -xf "$it" -C "$work/got"; done
    diff -rq "$work/right" "$work/got" >"$work/log" 2>&1 || { head -n 3 "$work/log"; exit 1; }
    [[ $(cat "$work"/got/*.refused | wc -l) == 1 ]] || { echo "scale: $1: another count of refusals than 1"; exit 1; }
    [[ $(tail -n +2 jobs.log | cut -f7 | sort -u) == 0 ]] || { echo "scale: $1: a job failed"; exit 1; }
    [[ $(tail -n +2 jobs.log | cut -f1 | sort -u | wc -l) == "$shards" ]] || { echo "scale: $1: shards lack"; exit 1; }
    rm -r "$work/got"
}

done_jobs() { if [[ -f jobs.log ]]; then tail -n +2 jobs.log | wc -l; else echo 0; fi; }

# until_jobs COUNT: waits until so many are done.
until_jobs() { while (($(done_jobs) < $1)); do sleep 0.1; done; }

run_pages() { "$top/examples/scale/pages" "$work/hosts" 2>>"$work/parallel.log"; }

# The same in the background, as one process.
start_pages() {
    "$top/examples/scale/pages" "$work/hosts" 2>>"$work/parallel.log" &
    pid=$!
}

# ---- what is measured

# spent: the seconds that the processes of the hosts, and those that they waited for, were on a processor.
spent() {
    local n pid
    for n in 1 2 3; do
        for pid in $(ip netns pids "$(namespace "$n")"); do sed 's/.*) //' "/proc/$pid/stat" 2>/dev/null || true; done
    done | awk -v ticks="$(getconf CLK_TCK)" '{ sum += $12 + $13 + $14 + $15 } END { print sum / ticks }'
}

# speed NAME JOBS..: pages a second, and what a page takes on processors with all that is done for it on both sides of
# ssh, the best of the rounds, each from nothing.
speed() {
    local name=$1 before it
    shift
    hosts "$@"
    : >"$work/rounds"
    for ((it = 0; it < rounds; it++)); do
        begin_anew
        before=$(spent)
        { time run_pages; } 2>"$work/times"
        echo "$(<"$work/times") $(spent) $before" >>"$work/rounds"
        check "$name"
    done
    awk -v name="$name" -v pages="$pages" '
        NR == 1 || $1 < took { took = $1 }
        NR == 1 || $2 + $3 + $4 - $5 < busy { busy = $2 + $3 + $4 - $5 }
        END {
            printf "%-34s %6.0f pages a second, a million in %.1f hours; %.2f ms of processors a page\n", name,
                pages / took, 1e6 * took / pages / 3600, busy * 1000 / pages
        }' "$work/rounds"
}

# The command is killed when a third is done, and given again.
kill_and_resume() {
    local pid before
    hosts 1 1 1
    begin_anew
    start_pages
    until_jobs $((shards / 3))
    kill -9 "$pid"
    wait "$pid" 2>/dev/null || true
    before=$(done_jobs)
    cp jobs.log "$work/before"
    run_pages
    check 'killed'
    head -n "$((before + 1))" jobs.log | cmp -s - "$work/before" || { echo 'scale: a shard was done again'; exit 1; }
    echo "killed after $before of $shards jobs, the same command did the other $(($(done_jobs) - before)):" \
        "all pages are right"
}

# A host goes away when a third is done.
lose_and_finish() {
    local pid
    hosts 1 1 1
    begin_anew
    start_pages
    until_jobs $((shards / 3))
    lose_host 3
    wait "$pid"
    check 'a host lost'
    echo "a host lost after a third, which had done $(tail -n +2 jobs.log | grep -c "$network.3") of $shards jobs:" \
        "the others did the rest, and all pages are right"
}

# by_page WHAT TIMES: what a page takes on a processor, by the times of a run of all shards.
by_page() {
    awk -v what="$1" -v pages="$pages" '
        { printf "a page by %s, without ssh: %.3f ms on a processor\n", what, ($2 + $3) * 1000 / pages }' "$2"
}

# What a page takes by itself, and a job without pages.
parts() {
    local it before words
    by_page 'the program' "$work/local.times"
    (
        cd "$work/local"
        by_library
        { time for it in shards/*.tsv; do ./render "$it"; done; } 2>"$work/library.times"
    )
    by_page 'the library' "$work/library.times"
    head -n 1 shards/00000.tsv | cut -f4 >"$work/one.json"
    words=(render shop.list.main "$work/one.json" - ./*.soy)
    { time for it in {1..100}; do ./soyc "${words[@]}" >"$work/page"; done; } 2>"$work/soyc.times"
    { time for it in {1..100}; do /bin/true; done; } 2>"$work/true.times"
    awk '{ printf "%s %.2f ms", NR == 1 ? "a process of soyc:" : ", one that does nothing:", ($2 + $3) * 10 }
        END { print "" }' "$work/soyc.times" "$work/true.times"
    mkdir full
    mv shards/*.tsv full
    for it in full/*; do : >"shards/${it#full/}"; done
    hosts 1
    begin_anew
    before=$(spent)
    { time run_pages; } 2>"$work/times"
    echo "$(<"$work/times") $(spent) $before" | awk -v count="$shards" '{
        printf "a job without pages, by ssh: %.2f s, %.2f s of processors\n", $1 / count, ($2 + $3 + $4 - $5) / count
    }'
}

TIMEFORMAT='%R %U %S'
# (which fails where another run goes on)
ip link add soyc-bridge type bridge
trap tidy EXIT
make_keys
ip address add "$network.254/24" dev soyc-bridge
ip link set soyc-bridge up
make_pages
for host in 1 2 3; do start_host "$host"; done
echo "$pages pages of the shop in two languages, in $shards shards"
kill_and_resume
for by in program library; do
    "by_$by"
    speed "by the $by, 1 job on 1 host" 1
    speed "by the $by, 2 jobs on 2 hosts" 1 1
    speed "by the $by, 4 jobs on 3 hosts" 2 1 1
done
by_program
lose_and_finish
parts
