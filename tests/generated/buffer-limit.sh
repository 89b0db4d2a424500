#!/usr/bin/env bash
# The greatest number of buffers, and one more.
set -euo pipefail
source "$(dirname "$0")/../lib/shared"

buffers="$BUFFERS"
for number in $(seq "$buffers"); do
    printf 'buffer b%d\n#= ok\n' "$number"
done
cat <<END
buffer b$((buffers + 1))
#= err 6 Limit buffers
buffer b1
#= err 3 Exists
END
