#!/usr/bin/env bash
# The greatest number of files at a time, and one more by each command that makes one. A close makes room for one. The limit is
# reported first, also if the timeline is closed.
set -euo pipefail
source "$(dirname "$0")/../lib/shared"

files="$FILES"
printf 'timeline a\n#= ok 1\n'
for number in $(seq "$files"); do
    printf 'fence f%d a 1\n#= ok\n' "$number"
done
cat <<END
fence f$((files + 1)) a 1
#= err 6 Limit files
fence f1 z 1
#= err 2 NoEntry
fence f1 a 1
#= err 3 Exists
merge g f1 f2
#= err 6 Limit files
merge f1 f1 z
#= err 2 NoEntry
merge f1 z f1
#= err 2 NoEntry
merge g f1 z
#= err 2 NoEntry
merge f1 f1 f2
#= err 3 Exists
buffer B
#= ok
export g B read
#= err 6 Limit files
export f1 C read
#= err 2 NoEntry
export f1 B read
#= err 3 Exists
info g
#= err 2 NoEntry
close f5
#= ok
fence g a 1
#= ok
fence h a 1
#= err 6 Limit files
export h B read
#= err 6 Limit files
report
#= ok $((files + 2))
END
row() {
    printf '#= %-8s %-31s %20d%s\n' "$@"
}
row timeline a 0 ""
for number in $(seq "$files"); do
    [ "$number" -eq 5 ] || row file "f$number" 0 "   1"
done
row file g 0 "   1"
row buffer B 0 ""
cat <<END
shut a
#= ok 0
fence h a 1
#= err 6 Limit files
fence f1 a 1
#= err 3 Exists
close g
#= ok
fence h a 1
#= err 15 Cancelled
END
