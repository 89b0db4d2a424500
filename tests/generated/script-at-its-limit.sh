#!/usr/bin/env bash
# A script of the greatest length, whose last byte ends a line.
set -euo pipefail
source "$(dirname "$0")/../lib/shared"

first=$'timeline a\n'
last=$'timeline b\n'
printf '%s' "$first"
empty_lines $((SCRIPT_BYTES - ${#first} - ${#last}))
printf '%s' "$last"
