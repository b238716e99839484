#!/bin/sh
# What a point takes in the library beside what it takes in the core, in instructions by callgrind. Status 1 where that is more than 30, or where it takes
# another number with a pool file.
#
#     library_cost.sh PROGRAM      library_cost, with the names of its functions
count=1000
folder=$(mktemp -d)
trap 'rm -rf "$folder"' EXIT
# inside PROGRAM FUNCTION [FILE]
inside() {
    program=$1 toggle=$2
    shift 2
    valgrind --tool=callgrind --callgrind-out-file=/dev/null --toggle-collect="$toggle" "$program" "$count" "$@" 2>&1 | awk '/Collected/ { print $4 }'
}
all=$(inside "$1" hind_point_at)
core=$(inside "$1" hindcore_point)
in_file=$(inside "$1" hind_point_at "$folder/pool")
[ -n "$all" ] && [ "${core:-0}" -gt 0 ] || { echo "callgrind counted nothing"; exit 1; }
own=$(((all - core) / count))
echo "a point takes $own instructions beside the core's $((core / count))"
echo "$count points take $all instructions, and $in_file with a pool file"
[ "$own" -le 30 ] && [ "$all" = "$in_file" ]
