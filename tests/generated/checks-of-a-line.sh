#!/usr/bin/env bash
# Spaces, notes, words that begin like a command, bytes that no word may have, and names of the greatest length.
set -euo pipefail
source "$(dirname "$0")/../lib/shared"

line=0
# Prints lines, the first of which is a command, and counts them.
lines() {
    printf '%s\n' "$@"
    line=$((line + $#))
}
is() { lines "$1" "#= $2"; }
is_syntax() { is "$1" "err 1 Syntax line $((line + 1))"; }

is "timeline a" "ok 1"
is "  timeline   b  " "ok 2"
lines "" " " "   "
lines "# note" "#" "  #note" "##"
is_syntax "timeline #"
is_syntax "timeline c # note"
is_syntax "timeline"
is_syntax "timeline c d"
is_syntax "timelines c"
is_syntax "timelin c"
is_syntax "Timeline c"
is_syntax "time line c"
is_syntax "xx"
is_syntax $'timeline\tc'
is_syntax $'timeline \tc'
is_syntax $'timeline c\r'
is_syntax $'\r'
is_syntax "timeline c/d"
is_syntax $'timeline \xc3\xa9'
is_syntax $'\xef\xbb\xbftimeline c'
is "timeline A.b-c_9" "ok 3"
is "timeline $(copies "$NAME_BYTES" n)" "ok 4"
is_syntax "timeline $(copies $((NAME_BYTES + 1)) n)"
is "info a" "err 2 NoEntry"
is "fence f c 1" "err 2 NoEntry"
is "timeline a" "err 3 Exists"
