#!/bin/sh
# Refuses each single allocation of the built program in turn, and checks how every run ends.
#
#     tools/fail_alloc.sh PROGRAM [lines|files|load|watch|frames ..] [--jobs N]
#
# PROGRAM is the built program, as crates/blobseer/out/blobseer. Without a further word all are tried: scripts of lines, scripts of
# lines about files, a load of three workers, a watch of three readers, and streams of frames to a server over the loopback. It prints how
# many runs there were and how many ended in each way, and ends with 1 where a run ended in no way that is allowed. tools/fail_alloc.py
# says which ways these are.
#
# It needs a C compiler (cc, gcc or clang), python3, glibc, and a program that is linked dynamically, so that a library can be loaded
# before it that stands in place of malloc. Where one of these is missing it says so and ends with 2.
set -u
here=$(CDPATH='' cd -- "$(dirname -- "$0")" && pwd) || exit 2

lacks() {
    echo "fail_alloc: $1" >&2
    exit 2
}

[ $# -ge 1 ] || lacks "no program: tools/fail_alloc.sh PROGRAM [lines|files|load|watch|frames ..] [--jobs N]"
program=$1
shift
[ -x "$program" ] || lacks "$program is no program that can be run"
command -v python3 >/dev/null || lacks "python3 is missing"
compiler=
for name in cc gcc clang; do
    if command -v "$name" >/dev/null; then
        compiler=$name
        break
    fi
done
[ -n "$compiler" ] || lacks "a C compiler is missing (cc, gcc or clang)"

work=$(mktemp -d) || exit 2
trap 'rm -rf "$work"' EXIT
trap 'exit 130' INT TERM
"$compiler" -O2 -Wall -shared -fPIC -o "$work/fail_alloc.so" "$here/fail_alloc.c" || lacks "the library that refuses allocations doesn't compile; it needs glibc"
FAIL_ALLOC_REPORT=$work/first LD_PRELOAD=$work/fail_alloc.so "$program" >/dev/null 2>&1 </dev/null
[ -s "$work/first" ] || lacks "the program doesn't load a library before it: it isn't linked dynamically with glibc"
read -r calls _ <"$work/first"
[ "$calls" -gt 0 ] || lacks "the program's allocations don't come to malloc"
python3 "$here/fail_alloc.py" "$program" "$work" "$@"
