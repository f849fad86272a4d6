#!/bin/sh
# Runs the program before any proof, to see it at work within minutes: it is compiled with checks at run time, and nothing of it is proved.
# Its input is standard input, at most 1 MiB of output is shown, and the output comes when the program has ended.
# try.sh [WORDS..]: the program's words, `replay` if left out. As tools/try.sh race --workers 4 < examples/side-by-side.script
cd "$(dirname "$0")/../crates/tect" || exit 1
if ! command -v rt >/dev/null; then
    echo "try: rt, the command of the Rattle toolchain, is not in PATH" >&2
    exit 1
fi
[ $# -gt 0 ] || set -- replay
echo "try: this proves nothing; the program is compiled first, which takes a minute or two" >&2
exec rt try -- "$@"
