#!/usr/bin/env bash
# A script that is one byte too long.
set -euo pipefail
source "$(dirname "$0")/../lib/shared"

first=$'timeline a\n'
printf '%s' "$first"
empty_lines $((SCRIPT_BYTES + 1 - ${#first}))
