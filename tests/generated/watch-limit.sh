#!/usr/bin/env bash
# The greatest number of watches at a time, and one more: its other causes of refusal are reported in their order. Watches fire in
# order of registration.
set -euo pipefail
source "$(dirname "$0")/../lib/shared"

watches="$WATCHES"
cat <<END
timeline a
#= ok 1
fence f a 1
#= ok
fence g a 0
#= ok
END
for cookie in $(seq "$watches"); do
    printf 'watch f %d\n#= ok\n' "$cookie"
done
cat <<END
watch f $((watches + 1))
#= err 6 Limit watches
watch g 1
#= err 3 Exists
watch f $watches
#= err 3 Exists
watch g $((watches + 1))
#= err 6 Limit watches
watch x 1
#= err 2 NoEntry
unwatch 7
#= ok 1
watch g $((watches + 1))
#= err 7 Signalled
watch f $((watches + 1))
#= ok
watch f 7
#= err 6 Limit watches
inc a 1
#= ok 1
END
for cookie in $(seq "$((watches + 1))"); do
    [ "$cookie" -eq 7 ] || printf '#= fired %d\n' "$cookie"
done
