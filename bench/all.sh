#!/bin/sh
# All measures, as the tables of README.md: replays, races, the same commands through SQLite and through plain files, and appends.
# all.sh [TIMES]: each run TIMES times (5 if left out), the fastest counts. Build the program first: ./tect replay < examples/first.script
cd "$(dirname "$0")" || exit 1
times=${1:-5}
echo "$(nproc) processors, load $(cut -d' ' -f1 /proc/loadavg)."
echo
./measure.py "$times" && ./measure_race.py 60000 "$times" && ./compare.py 60000 "$times" && ./measure_appends.py "$times"
