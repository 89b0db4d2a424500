#!/usr/bin/env bash
# All bytes, sixteen times: sixteen lines that end, and bytes after the last line feed.
set -euo pipefail

for _ in {1..16}; do
    for byte in {0..255}; do
        printf '%b' "\\x$(printf '%02x' "$byte")"
    done
done
