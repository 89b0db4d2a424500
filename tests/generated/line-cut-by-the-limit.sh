#!/usr/bin/env bash
# The limit of a script cuts its second command before the line feed.
set -euo pipefail
source "$(dirname "$0")/../lib/shared"

first=$'timeline a\n'
cut='timeline b'
printf '%s' "$first"
empty_lines $((SCRIPT_BYTES - ${#first} - ${#cut}))
printf '%s\ntimeline c\n' "$cut"
