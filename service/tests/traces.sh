#!/bin/sh
# traces.sh PROGRAM FOLDER: whether hindsight-traces prints of the store what traces.txt says, with (when) in place of a time.
grep '^\$' "$(dirname "$0")/traces.txt" | cut -c3- | while read -r words; do
    echo "\$ $words"
    # shellcheck disable=SC2086
    "$1" "$2" $words >"$2/said" 2>&1
    status=$?
    sed -E 's/[0-9]{4}-[0-9]{2}-[0-9]{2}T[0-9:]{8}Z/(when)              /' "$2/said"
    [ $status -eq 0 ] || echo "status $status"
done | diff "$(dirname "$0")/traces.txt" -
