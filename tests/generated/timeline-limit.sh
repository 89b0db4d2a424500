#!/usr/bin/env bash
# The greatest number of timelines, and one more. Closing a timeline makes room for none.
set -euo pipefail
source "$(dirname "$0")/../lib/shared"

timelines="$CONTEXTS"
for number in $(seq "$timelines"); do
    printf 'timeline t%d\n#= ok %d\n' "$number" "$number"
done
cat <<END
timeline t$((timelines + 1))
#= err 6 Limit timelines
timeline t1
#= err 3 Exists
shut t1
#= ok 0
timeline t$((timelines + 1))
#= err 6 Limit timelines
timeline t1
#= err 3 Exists
END
