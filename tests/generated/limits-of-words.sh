#!/usr/bin/env bash
# Each name and number of each command: the longest name, and the greatest number or the most digits; and one more.
set -euo pipefail
source "$(dirname "$0")/../lib/shared"

tail="$(copies $((NAME_BYTES - 1)) n)"
zeros="$(copies "$DIGITS" 0)"
line=0
lines() {
    printf '%s\n' "$@"
    line=$((line + $#))
}

# A word of a row: a capital letter is a longest name that begins with it.
word() {
    case "$1" in
    [A-Z]) printf '%s%s' "$1" "$tail" ;;
    *) printf '%s' "$1" ;;
    esac
}

# Words that are one too long for the place of this word, if it has a limit.
words_past() {
    case "$1" in
    [A-Z]) printf '%s%sn\n' "$1" "$tail" ;;
    [0-9]*) printf '%s\n' 18446744073709551616 "${zeros}0" ;;
    esac
}

# The words of a row, in which one word may be replaced.
row() {
    local place="$1" other="$2" text="" here
    for here in "${!words[@]}"; do
        if [ "$here" = "$place" ]; then text+=" $other"; else text+=" $(word "${words[here]}")"; fi
    done
    printf '%s' "${text# }"
}

while IFS='|' read -r command answer; do
    read -ra words <<<"$command"
    for place in "${!words[@]}"; do
        for other in $(words_past "${words[place]}"); do
            lines "$(row "$place" "$other")" "#= err 1 Syntax line $((line + 1))"
        done
    done
    lines "$(row none "")" "#= $answer"
done <<END
timeline T|ok 1
inc T $zeros|ok 0
value T|ok 0
fence F T 18446744073709551615|ok
fence G T $zeros|ok
wait F|err 8 TimedOut
merge M F G|ok
buffer B|ok
add B T 18446744073709551615 read|ok
import B M rw|ok
export E B write|ok
test B bookkeep|ok 0
trim B|ok
watch E 18446744073709551615|ok
unwatch 18446744073709551615|ok 1
watch E $zeros|ok
unwatch $zeros|ok 1
close G|ok
inc T 18446744073709551615|ok 18446744073709551615
shut T|ok 18446744073709551615
END
lines "info E$tail" "#= ok E$tail 1 1" "#= fence T$tail sw_sync 18446744073709551615 1"
lines "info E${tail}n" "#= err 1 Syntax line $((line + 1))"
lines "show B${tail}n" "#= err 1 Syntax line $((line + 1))"
lines "show B$tail" "#= ok 0"
