#!/usr/bin/env bash
# Fuzzing of the library: texts, tables and ranked lists, whole and changed, in buffers of right and wrong sizes between
# guard pages, against the model in C and against the second implementation in Python.
#
#     fuzz/run.sh short                  the run of the gate: fixed seed and count
#     fuzz/run.sh long COUNT [SEED]      by hand: the same with another count and seed
#     fuzz/run.sh valgrind COUNT [SEED]  by hand: under valgrind's memcheck, which looks into the archive's code too
#
# It takes crates/chthonyra/out/libchthonyra.a as it is, and has it built where it is absent. The driver and the model are
# compiled with gcc's checkers of addresses and of undefined behaviour; the archive is not, and is held by the guard pages.
# The last line is 'N passed, 0 failed'.
set -euo pipefail
cd "$(dirname "$0")/.."

what="${1:-short}"
case "$what" in
    short) count=160000; seed=1; compared=6000 ;;
    long) count="${2:?a count}"; seed="${3:-$(date +%s)}"; compared=$((count / 50)) ;;
    valgrind) count="${2:?a count}"; seed="${3:-$(date +%s)}"; compared=0 ;;
    *) echo "fuzz/run.sh short | long COUNT [SEED] | valgrind COUNT [SEED]" >&2; exit 2 ;;
esac

command -v gcc >/dev/null 2>&1 || { apt-get update -qq && apt-get install -y -qq gcc libc6-dev; }
archive=crates/chthonyra/out/libchthonyra.a
[ -f "$archive" ] || (cd crates/chthonyra && rt lib)
made=target/fuzz
mkdir -p "$made"
words=(-std=gnu11 -O1 -g -Wall -Wextra -Werror -Iinclude fuzz/*.c "$archive")

if [ "$what" = valgrind ]; then
    gcc "${words[@]}" -o "$made/plain"
    exec valgrind -q --error-exitcode=1 "$made/plain" "$seed" "$count"
fi

gcc "${words[@]}" -fsanitize=address,undefined -fno-sanitize-recover=all -o "$made/driver"
echo "seed $seed, $count cases"
"$made/driver" "$seed" "$count" | tee "$made/run"
echo "the second implementation, $compared cases of it"
"$made/driver" "$seed" "$compared" 0 "$made/record" >/dev/null
python3 -B fuzz/compare.py "$made/record" | tee "$made/compared"

passed() { tail -n 1 "$1" | sed -n 's/^\([0-9][0-9]*\) passed, 0 failed$/\1/p'; }
one="$(passed "$made/run")"
other="$(passed "$made/compared")"
[ -n "$one" ] && [ -n "$other" ]
echo "$((one + other)) passed, 0 failed"
