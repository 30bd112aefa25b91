#!/usr/bin/env bash
# Shows that a server that may open 30 files takes connections again once others leave: 40 connections come, more than it has
# files for; it stays, and once they leave a new client is answered. The gate doesn't run it. The program is
# crates/blobseer/out/blobseer, or the one named by the first word.
set -u
cd "$(dirname "$0")/.." || exit 2
program=${1:-crates/blobseer/out/blobseer}
port=${PORT:-7461}
work=$(mktemp -d) || exit 2

(ulimit -n 30 && exec "$program" serve --listen "127.0.0.1:$port" --workers 16 >"$work/out" 2>"$work/err") &
server=$!
trap 'kill "$server" 2>/dev/null; rm -rf "$work"' EXIT

fail() {
    echo "accept_pressure: $1" >&2
    exit 1
}

# Whether a new connection is answered: it makes a blob.
is_answered() {
    timeout 5 bash -c 'exec 3<>"/dev/tcp/127.0.0.1/$0" && printf "\0\0\0\1\1" >&3 && head -c 13 <&3 | od -An -tx1 | tr -d " \n"' "$port" 2>/dev/null |
        grep -q '^0000000981'
}

for _ in $(seq 50); do
    is_answered && break
    sleep 0.1
done
is_answered || fail "the server doesn't answer"

held=()
for _ in $(seq 40); do
    exec {fd}<>"/dev/tcp/127.0.0.1/$port" || fail "a connection was refused"
    held+=("$fd")
done
sleep 2
kill -0 "$server" 2>/dev/null || fail "the server ended where it had no files for the next connection"
files=$(ls "/proc/$server/fd" | wc -l)
[ "$files" -ge 30 ] || fail "the server has $files open files, and was to have 30"

for fd in "${held[@]}"; do
    exec {fd}>&-
done
start=$(date +%s%N)
for _ in $(seq 10); do
    is_answered && break
done
is_answered || fail "no new client is answered once the others left"
echo "accept_pressure: 40 connections at 30 files; a new client was answered $((($(date +%s%N) - start) / 1000000)) ms after they left"
