#!/usr/bin/env bash
# Only the latest of many points of a timeline is shown.
set -euo pipefail

printf 'timeline a\n#= ok 1\nbuffer B\n#= ok\n'
for point in $(seq 400 -1 1); do
    printf 'add B a %d bookkeep\n#= ok\n' "$point"
done
printf 'show B\n#= ok 1\n#= %-8s %-31s %20d\n' bookkeep a 400
