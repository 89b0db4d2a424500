#!/usr/bin/env bash
# Refused lines, an empty line, and a last line without a line feed.
set -euo pipefail
source "$(dirname "$0")/../lib/shared"

cat <<END
buffer B
import B x read
timeline $(copies $((NAME_BYTES + 1)) t)
$(copies $((LINE_BYTES + 1)) z)

import B x none
timeline a
END
printf 'value a'
