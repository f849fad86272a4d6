#!/bin/sh
# Runs each case of cases/ and each example of examples/ through the built program, and compares the bytes that it writes and its
# exit status.
# A case is NAME.status, and
# - NAME.script, its standard input; or NAME.make, a shell script that writes a long one; or NAME.run, a shell script that runs the program,
#   whose path is $1, over an input and an output of its own;
# - NAME.args, its words, one a line;
# - NAME.stdout, what it has to write; or NAME.want, a shell script that writes it.
# check_cases.sh [NAME..]: these alone.
top=$(cd "$(dirname "$0")/.." && pwd) || exit 1
room=$(mktemp -d) || exit 1
trap 'rm -rf "$room"' EXIT
passed=0
failed=0

# The status of the program at this case, and what it wrote in $room/out.
run_case() {
    case=$1
    if [ -f "$case.run" ]; then
        sh "$case.run" "$top/tect" > "$room/out" 2> "$room/err"
        return
    fi
    input=$case.script
    if [ -f "$case.make" ]; then
        input=$room/in
        sh "$case.make" > "$input"
    fi
    set --
    while IFS= read -r word; do set -- "$@" "$word"; done < "$case.args"
    "$top/tect" "$@" < "$input" > "$room/out" 2> "$room/err"
}

for ended in "$top"/cases/*.status "$top"/examples/*.status; do
    case=${ended%.status}
    if [ $# -gt 0 ]; then
        case " $* " in *" $(basename "$case") "*) ;; *) continue ;; esac
    fi
    wanted=$case.stdout
    if [ -f "$case.want" ]; then
        wanted=$room/want
        sh "$case.want" > "$wanted"
    fi
    run_case "$case"
    status=$?
    if [ "$status" = "$(cat "$case.status")" ] && cmp -s "$room/out" "$wanted"; then
        passed=$((passed + 1))
    else
        failed=$((failed + 1))
        echo "case $(basename "$case"): status $status, wrote:"
        head -c 400 "$room/out"
        head -c 400 "$room/err"
    fi
done
echo "cases: $passed passed, $failed failed"
[ "$failed" -eq 0 ] && [ "$passed" -gt 0 ]
