#!/usr/bin/env bash
# Each byte except the line feed and the space as a name, and names of several lengths.
set -euo pipefail
source "$(dirname "$0")/../lib/shared"

lines=0
say() {
    printf '%b\n' "$@"
    lines=$((lines + $#))
}

is_name() {
    say "fence $1 a 1" "#= ok" "info $1" "#= ok $1 0 1" "#= fence a sw_sync 1 0"
}

is_no_name() {
    say "fence $1 a 1" "#= err 1 Syntax line $((lines + 1))"
}

say "timeline a" "#= ok 1"
for byte in {0..255}; do
    hex="$(printf '%02x' "$byte")"
    case "$hex" in
    0a | 20) ;;
    2d | 2e | 3[0-9] | 4[1-9a-f] | 5[0-9a] | 5f | 6[1-9a-f] | 7[0-9a]) is_name "\\x$hex" ;;
    *) is_no_name "\\x$hex" ;;
    esac
done
longest="gpu-0.render_pass-17.frame_$(copies $((NAME_BYTES - 27)) 4)"
is_name "${longest%4}"
is_name "$longest"
is_no_name "${longest}2"
