#!/usr/bin/env bash
# Commands filled with spaces up to the limit of a line and past it, and a note past it.
set -euo pipefail
source "$(dirname "$0")/../lib/shared"

bytes="$LINE_BYTES"
printf '%s\n' "timeline a"
for length in "$bytes" $((bytes + 1)); do
    printf '%-*s\n' "$length" "value a"
done
printf '#%s\n' "$(copies "$bytes" x)"
