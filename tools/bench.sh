#!/usr/bin/env bash
# How long the program takes for four scripts, beside another program that answers the same lines.
#
#     tools/bench.sh                      the proved program alone
#     tools/bench.sh OTHER [WORD..]       and OTHER, called with these words (run, unless others are given)
#
# It makes the scripts, runs each program on each of them by turns, three times, and prints of each the least processor time,
# user and system together, and the greatest memory; of the other program also how many times its figures the proved one's are.
# The replies of both must be the same. It wants python3, and some 200 MB in the folder for temporary files. The proved program
# is crates/blobseer/out/blobseer, or what PROGRAM names.
set -u
top=$(cd "$(dirname "$0")/.." && pwd)
program=${PROGRAM:-$top/crates/blobseer/out/blobseer}
command -v python3 >/dev/null || { echo "bench: python3 is needed" >&2; exit 2; }
[ -x "$program" ] || { echo "bench: $program is not there: build it by ./blobseer run </dev/null" >&2; exit 2; }
other=("$@")
[ ${#other[@]} != 1 ] || other+=(run)
work=$(mktemp -d) || exit 2
trap 'rm -rf "$work"' EXIT

# The scripts. Numbers that look like chance come from the same formula each time.
appends() {
    awk 'BEGIN { print "create"; for (i = 0; i < 100000; i++) printf "append 1 %032x\n", i }'
}
reads() {
    awk 'BEGIN {
        print "create"
        for (i = 0; i < 5000; i++) printf "append 1 %032x\n", i
        for (x = 1; n < 100000; n++) {
            x = (x * 48271) % 2147483647
            version = 1 + x % 5000
            x = (x * 48271) % 2147483647
            printf "read 1 %d %d 16\n", version, 16 * (x % version)
        }
    }'
}
overwrites() {
    awk 'BEGIN {
        print "create"
        for (i = 0; i < 1500; i++) part = part "a5"
        data = part part
        for (i = 0; i < 100; i++) print "append 1 " data
        for (x = 1; n < 10000; n++) {
            x = (x * 48271) % 2147483647
            printf "write 1 %d %s\n", x % 297001, data
        }
    }'
}
large() {
    awk 'BEGIN {
        data = "0123456789abcdef"
        while (length(data) < 2097152) data = data data
        print "create"
        for (i = 1; i <= 24; i++) print "append 1 " data
        for (i = 0; i < 9; i++) printf "read 1 24 %d 16777216\n", i * 1048576
    }'
}

# One run: processor seconds and greatest memory in KB.
measured() {
    python3 - "$@" <<'P'
import resource, subprocess, sys
script, replies, *words = sys.argv[1:]
with open(script, "rb") as given, open(replies, "wb") as got:
    status = subprocess.run(words, stdin=given, stdout=got).returncode
used = resource.getrusage(resource.RUSAGE_CHILDREN)
if status:
    sys.exit(f"bench: {words[0]} ended with status {status}")
print(f"{used.ru_utime + used.ru_stime:.3f} {used.ru_maxrss}")
P
}

# The least time and the greatest memory of the lines that come in.
best() {
    awk 'NR == 1 || $1 < time { time = $1 } $2 > memory { memory = $2 } END { print time, memory }'
}

printf '%-12s %12s %12s %s\n' script "seconds" "MB" "${other[0]:+beside ${other[0]##*/}: seconds, MB, times as long, times as much}"
for name in appends reads overwrites large; do
    "$name" >"$work/script"
    : >"$work/ours"
    : >"$work/others"
    for _ in 1 2 3; do
        measured "$work/script" "$work/replies" "$program" run >>"$work/ours" || exit 1
        [ ${#other[@]} = 0 ] && continue
        measured "$work/script" "$work/other" "${other[@]}" >>"$work/others" || exit 1
        cmp -s "$work/replies" "$work/other" || { echo "bench: the replies to $name differ" >&2; exit 1; }
    done
    read -r seconds memory < <(best <"$work/ours")
    if [ ${#other[@]} = 0 ]; then
        printf '%-12s %12s %12s\n' "$name" "$seconds" $((memory / 1024))
    else
        read -r theirs much < <(best <"$work/others")
        printf '%-12s %12s %12s %12s %8s %8s %8s\n' "$name" "$seconds" $((memory / 1024)) "$theirs" $((much / 1024)) \
            "$(awk "BEGIN { printf \"%.2f\", $seconds / $theirs }")" "$(awk "BEGIN { printf \"%.2f\", $memory / $much }")"
    fi
done
