#!/usr/bin/env bash
# A file and a buffer with a point of each of the greatest number of timelines. Their tables need several writes.
set -euo pipefail
source "$(dirname "$0")/../lib/shared"

timelines="$CONTEXTS"
for number in $(seq "$timelines"); do
    printf 'timeline t%d\n#= ok %d\nfence f%d t%d 1\n#= ok\n' "$number" "$number" "$number" "$number"
done
printf 'merge m2 f1 f2\n#= ok\n'
for number in $(seq 3 "$timelines"); do
    printf 'merge m%d m%d f%d\n#= ok\n' "$number" $((number - 1)) "$number"
done
printf 'info m%d\n#= ok m%d 0 %d\n' "$timelines" "$timelines" "$timelines"
for number in $(seq "$timelines"); do
    printf '#= fence t%d sw_sync 1 0\n' "$number"
done
cat <<END
buffer B
#= ok
import B m$timelines write
#= ok
export e B read
#= ok
watch e 7
#= ok
watch m$timelines 8
#= ok
show B
#= ok $((3 * timelines))
END
for usage in write read bookkeep; do
    for number in $(seq "$timelines"); do
        printf '#= %-8s %-31s %20d\n' "$usage" "t$number" 1
    done
done
for number in $(seq "$timelines"); do
    printf 'inc t%d 1\n#= ok 1\n' "$number"
done
printf '#= fired 7\n#= fired 8\n'
