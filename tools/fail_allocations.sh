#!/bin/sh
# Runs the built program on a script, that of crates/tect if none is named, with each allocation failing in turn, from the first to the last.
# Each such run, of a script without `dump`, has to end
# - with status 6 and a front of the whole output, cut between lines;
# - with status 0 and a line for each command, one of which found no memory;
# - or with status 0 and the whole output, where it got on without (as a race does by a thread that could not start).
# fail_allocations.sh [FILE.script] [WORDS..]: the program's words, `replay` if left out; also `race --workers 1`.
# Build the program first: ./tect replay < examples/first.script
cd "$(dirname "$0")/.." || exit 1
program=crates/tect/out/tect
input=crates/tect/stdin
case "$1" in *.script) input=$1 && shift ;; esac
[ $# -gt 0 ] || set -- replay
scratch=$(mktemp -d) || exit 1
trap 'rm -rf "$scratch"' EXIT
whole=$scratch/whole
"$program" "$@" <"$input" >"$whole" || exit 1

# `malloc` and `realloc` that fail at the call whose number FAIL_ALLOCATION tells, and tell at the end how many calls there were.
cat >"$scratch/fail.c" <<'C'
#define _GNU_SOURCE
#include <dlfcn.h>
#include <stdio.h>
#include <stdlib.h>
#include <sys/syscall.h>
#include <unistd.h>

static unsigned long calls;

static int fails(void) {
    const char *number = getenv("FAIL_ALLOCATION");
    unsigned long call = __atomic_add_fetch(&calls, 1, __ATOMIC_RELAXED);
    return number && call == strtoul(number, NULL, 10);
}

void *malloc(size_t size) {
    static void *(*next)(size_t);
    if (!next) next = (void *(*)(size_t))dlsym(RTLD_NEXT, "malloc");
    return fails() ? NULL : next(size);
}

void *realloc(void *old, size_t size) {
    static void *(*next)(void *, size_t);
    if (!next) next = (void *(*)(void *, size_t))dlsym(RTLD_NEXT, "realloc");
    return fails() ? NULL : next(old, size);
}

/* The program ends by this call. */
__attribute__((noreturn)) void _exit(int status) {
    if (getenv("TELL_ALLOCATIONS")) dprintf(2, "%lu\n", calls);
    syscall(SYS_exit_group, status);
    __builtin_unreachable();
}
C
${CC:-cc} -O2 -shared -fPIC -o "$scratch/fail.so" "$scratch/fail.c" -ldl || exit 1

all=$(TELL_ALLOCATIONS=1 LD_PRELOAD="$scratch/fail.so" "$program" "$@" <"$input" 2>&1 >/dev/null | tail -n 1)
case "$all" in '' | *[!0-9]*) echo "the allocations can't be counted" && exit 1 ;; esac
ended=0
wanting=0
got_on=0
number=1
while [ "$number" -le "$all" ]; do
    FAIL_ALLOCATION=$number LD_PRELOAD="$scratch/fail.so" "$program" "$@" <"$input" >"$scratch/output"
    status=$?
    lines=$(wc -l <"$scratch/output")
    head -n "$lines" "$whole" >"$scratch/front"
    if [ "$status" -eq 6 ] && cmp -s "$scratch/output" "$scratch/front"; then
        ended=$((ended + 1))
    elif [ "$status" -eq 0 ] && cmp -s "$scratch/output" "$whole"; then
        got_on=$((got_on + 1))
    elif [ "$status" -eq 0 ] && [ "$(grep -c ' no-memory$' "$scratch/output")" -eq 1 ] && [ "$(tail -n 1 "$scratch/output")" = end ] \
        && [ "$lines" -eq "$(wc -l <"$whole")" ]; then
        wanting=$((wanting + 1))
    else
        echo "allocation $number failed: status $status, and this output:"
        cat "$scratch/output"
        exit 1
    fi
    number=$((number + 1))
done
echo "each of $all allocations failed in turn: $ended times status 6 and a front of the output, $wanting times one answer no-memory, $got_on times all was done"
[ "$((ended + wanting))" -gt 0 ]
