#!/bin/sh
# Where a request has a place in the code: the files that name it as a request, as a reply of its own or as a step of the small machine,
# crate by crate, from the lowest crate up, and how many they are. So one sees where a new request has to be put. The commands' own
# crates are left out, and so are tests, edits and lists of modules.
# places_of_request.sh [REQUEST] (Swap if left out)
cd "$(dirname "$0")/../crates" || exit 1
request=${1:-Swap}
case $request in
CheckDir) own='DirIs' steps='Check' ;;
Look) own='Found' steps='Look' ;;
List) own='Listing' steps='List' ;;
MakeDir | MakeFile) own='Made' steps=$request ;;
Bind) own='Bound' steps='Bind' ;;
Swap) own='Swapped' steps='Swap' ;;
Unbind) own='Unbound' steps='Unbind' ;;
Grant) own='Granted' steps='GrantDir GrantFile' ;;
Release) own='Released' steps='' ;;
SealDir | SealFile) own='SealedNow' steps=$request ;;
*)
    echo "places_of_request: write down the reply of $request and its steps in this script" >&2
    exit 2
    ;;
esac

# Whether the file names a word of these types: behind a type or another name of its variants, in an import of variants, or where it is declared.
names() {
    types=$1 words=$(echo "$2" | tr ' ' '|') file=$3
    [ -n "$words" ] || return 1
    others=$(sed -n -E "s/.*\\b($types)\\.TheVariants as ([a-z_]+).*/\\2/p" "$file" | sort -u | tr '\n' '|')
    grep -qE "\\b($types)(::|\\.)($words)\\b|\\b($types)\\.TheVariants\\.\\{([^}]*[ ,{])?($words)\\b" "$file" && return 0
    [ -n "$others" ] && grep -qE "\\b(${others%|})\\.($words)\\b" "$file" && return 0
    sed -n -E "/^pub enum ($types) /,/^}/p" "$file" | grep -qE "^ +($words)\\b"
}

sed -n 's/^\([a-z_]*\):.*/\1/p' ../crates.txt | grep -vxE 'program_rules|op_names|names_laws|names_told' | while IFS= read -r crate; do
    for part in src specs proofs; do
        [ -d "$crate/$part" ] && grep -rlE --include='*.rt' --include='*.antt' 'NameRe|FileRe|TreeStep' "$crate/$part" | sort
    done
done | while IFS= read -r file; do
    case $file in *tests* | */Lib.antt) continue ;; esac
    if names 'NameReq|FileReq' "$request" "$file" || names 'NameReply|FileReply' "$own" "$file" || names TreeStep "$steps" "$file"; then
        echo "$file"
    fi
done | {
    count=0
    while IFS= read -r file; do
        echo "$file"
        count=$((count + 1))
    done
    echo
    echo "$request: $count files"
}
