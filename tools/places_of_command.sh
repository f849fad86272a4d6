#!/bin/sh
# Where a command has a place in the code: the files that name it, its operation or its states, crate by crate, from the lowest crate up, and
# how many they are. So one sees where a new command has to be put. Apart from them stand the files that name commands that are
# planned and not served yet too: these hold all planned commands already. Tests, edits and lists of modules are left out.
# places_of_command.sh [COMMAND] (Rename if left out); COMMAND is Create, Mkdir, Delete or Rename.
cd "$(dirname "$0")/../crates" || exit 1
command=${1:-Rename}
served=program_rules/specs/Served.antt
# Its operation, where that has another name, as it begins: `begun (commands.COMMAND ..) = .. operation.OPERATION ..`.
operation=$(sed -n "s/^begun (commands\.${command}[ )].*operation\.\([A-Z][A-Za-z]*\).*/\1/p" $served)
named="\\b($command${operation:+|$operation})\\b"
# The variants of Command that are not served; every type is one that can be dropped, so Drop tells nothing.
planned=$(sed -n '/^pub enum Command/,/^}/s/^    \([A-Z][A-Za-z]*\).*/\1/p' tect_ids/src/command.rt |
    while IFS= read -r variant; do
        [ "$variant" = Drop ] || grep -q "^is_served (commands\.${variant}[ )]" $served || printf '%s|' "$variant"
    done)
# Not behind another name: a value that the small machine shows may be called so too.
planned="(^|[^.A-Za-z_]|(commands|verbs)\\.)(${planned%|})\\b"

files() {
    sed -n 's/^\([a-z_]*\):.*/\1/p' ../crates.txt | while IFS= read -r crate; do
        for part in src specs proofs; do
            [ -d "$crate/$part" ] && grep -rlE --include='*.rt' --include='*.antt' "$named" "$crate/$part" | sort
        done
    done | while IFS= read -r file; do
        case $file in
        *tests* | */Lib.antt) ;;
        */lib.rt) grep -q '\bfn ' "$file" && echo "$file" ;;
        *) echo "$file" ;;
        esac
    done
}

told=$(files | while IFS= read -r file; do
    if grep -qE "$planned" "$file"; then echo "planned $file"; else echo "own $file"; fi
done)
echo "$told" | sed -n 's/^own //p'
echo
echo "these name planned commands too:"
echo "$told" | sed -n 's/^planned //p'
echo
echo "$command: $(echo "$told" | grep -c '^own ') files, and $(echo "$told" | grep -c '^planned ') that name planned commands too"
