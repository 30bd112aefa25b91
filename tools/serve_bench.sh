#!/usr/bin/env bash
# How many requests a second `serve --workers 16` answers over the loopback.
#
#     tools/serve_bench.sh              the proved program alone
#     tools/serve_bench.sh OTHER        and OTHER by turns, called with the same words
#
# Each row is a load of tools/frames_bench.rs, which rustc makes, run twice against a server of its own; what stands there are
# requests a second, and the time of one in microseconds (of 50, 99 and 100 % of them). The proved program is
# crates/blobseer/out/blobseer, or what PROGRAM names. OPS is the number of requests of a client (20000 unless said otherwise). Let
# nothing else run beside it.
set -u
top=$(cd "$(dirname "$0")/.." && pwd)
programs=("${PROGRAM:-$top/crates/blobseer/out/blobseer}" "$@")
command -v rustc >/dev/null || { echo "serve_bench: rustc is needed" >&2; exit 2; }
for program in "${programs[@]}"; do
    [ -x "$program" ] || { echo "serve_bench: $program is not there" >&2; exit 2; }
done
work=$(mktemp -d) || exit 2
server=
trap 'kill "$server" 2>/dev/null; rm -rf "$work"' EXIT
rustc --edition 2024 -O -o "$work/load" "$top/tools/frames_bench.rs" || exit 2
ops=${OPS:-20000}
port=${PORT:-7480}

# One load against a new server.
measured() {
    local program=$1 address=127.0.0.1:$port
    shift
    port=$((port + 1))
    "$program" serve --listen "$address" --workers 16 >/dev/null &
    server=$!
    for _ in $(seq 200); do
        (exec 3<>"/dev/tcp/127.0.0.1/${address#*:}") 2>/dev/null && break
        sleep 0.02
    done
    "$work/load" "$address" "$@"
    local status=$?
    kill "$server" && wait "$server" 2>/dev/null
    return "$status"
}

while read -r row; do
    echo "frames_bench $row"
    for _ in 1 2; do
        for program in "${programs[@]}"; do
            read -ra words <<<"$row"
            printf '  %-24s ' "$(basename "$program")"
            measured "$program" "${words[@]}" 2>&1 | sed 's/^.*: \([0-9]* requests\)/\1/'
        done
    done
done <<END
--clients 4 --size 64 --ops $ops
--clients 4 --size 4096 --ops $ops
--clients 4 --size 4096 --reads 90 --ops $ops
--clients 15 --size 64 --shared --ops $((ops / 4))
--clients 4 --size 64 --depth 16 --ops $((ops * 4))
--clients 4 --size 65536 --reads 90 --ops $((ops / 4))
--clients 2 --size 1048576 --reads 50 --ops $((ops / 40))
END
