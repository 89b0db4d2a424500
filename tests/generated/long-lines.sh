#!/usr/bin/env bash
# Commands and notes with one byte less than the limit of a line, with exactly the limit, and with one byte more. The last line
# has no line feed.
set -euo pipefail
source "$(dirname "$0")/../lib/shared"

bytes="$LINE_BYTES"
for length in $((bytes - 1)) "$bytes" $((bytes + 1)); do
    printf '%-*s\n' "$length" "timeline a"
done
for length in $((bytes - 1)) "$bytes" $((bytes + 1)); do
    printf '#%s\n' "$(copies $((length - 1)) x)"
done
copies $((bytes + 1)) ' '
