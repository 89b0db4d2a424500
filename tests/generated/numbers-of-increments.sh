#!/usr/bin/env bash
# Numbers at their limits and past them, a tab in a word, and a last line without a line feed.
set -euo pipefail
source "$(dirname "$0")/../lib/shared"

digits="$DIGITS"
cat <<END
timeline a
inc a 18446744073709551616
inc a $(copies $((digits - 1)) 0)5
inc a $(copies "$digits" 0)5
inc a -1
END
printf 'timeline\tb\n# note\nvalue a'
