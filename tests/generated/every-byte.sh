#!/usr/bin/env bash
# Each byte except the line feed as a line of its own. A space and a # make a note, and no other byte is a command.
set -euo pipefail

line=1
for byte in {0..255}; do
    [ "$byte" -ne 10 ] || continue
    printf '%b\n' "\\x$(printf '%02x' "$byte")"
    line=$((line + 1))
    case "$byte" in
    32 | 35) ;;
    *)
        printf '#= err 1 Syntax line %d\n' $((line - 1))
        line=$((line + 1))
        ;;
    esac
done
