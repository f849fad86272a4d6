#!/bin/sh
# Where a layer of shards has a place in the code outside its own crate: the files that name its shard or its variant of an enum that lists the
# layers, crate by crate, from the lowest crate up, each with how many of its lines do, and how many these are. So one sees where a new layer
# has to be put. The crates that say what its requests mean are left out, and so are tests, edits and lists of modules.
# places_of_layer.sh [LAYER] (File if left out); LAYER is Name, File, Block or Disk.
cd "$(dirname "$0")/../crates" || exit 1
layer=${1:-File}
case $layer in
File) own=file_shard ;;
Name) own=name_shard ;;
Block) own='block_shard|block_maps' ;;
Disk) own=disk_store ;;
*)
    echo "places_of_layer: write down the crate of $layer in this script" >&2
    exit 2
    ;;
esac
# The crates of what requests mean: the page on requests has them.
meaning='script_words|script_reader|store_pasts|store_world|program_parts|part_laws|program_rules|claim_words|names_laws|op_names'
meaning="$meaning|telling_laws|names_told|tree_runs|attached_blocks|session_runs"
# The enums that list the layers.
lists='AnyReq|AnyReply|AnyMachine|LentMachine|AnyKept|AnyPrepared'

# How many lines name the layer: its shard, its variant behind an enum or behind another name of the enum's variants, or alone where the
# file takes it in.
lines() {
    file=$1
    others=$(sed -n -E "s/.*\\b($lists)\\.TheVariants as ([a-z_]+).*/\\2/p" "$file" | sort -u | tr '\n' '|')
    pattern="\\b(${layer}Shard|${layer}ShardMachine)\\b|\\b($lists|Layer)::${layer}s?\\b|\\blayers\\.${layer}s\\b"
    [ -n "$others" ] && pattern="$pattern|\\b(${others%|})\\.$layer\\b"
    grep -qE "\\b($lists)\\.TheVariants\\.\\{([^}]*[ ,{])?$layer\\b" "$file" && pattern="$pattern|\\b$layer\\b"
    grep -cE "$pattern" "$file"
}

sed -n 's/^\([a-z_]*\):.*/\1/p' ../crates.txt | grep -vxE "$own|$meaning" | while IFS= read -r crate; do
    for part in src specs proofs; do
        [ -d "$crate/$part" ] && find "$crate/$part" -name '*.rt' -o -name '*.antt' | sort
    done
done | grep -vE 'tests|/Lib\.antt$' | while IFS= read -r file; do
    count=$(lines "$file")
    [ "$count" -gt 0 ] && echo "$count $file"
done | {
    files=0 sum=0
    while read -r count file; do
        printf '%4d %s\n' "$count" "$file"
        files=$((files + 1)) sum=$((sum + count))
    done
    echo
    echo "$layer: $sum lines in $files files"
}
