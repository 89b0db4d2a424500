#!/usr/bin/env bash
# Three files merged in each order, and each merge merged with itself.
set -euo pipefail

cat <<END
timeline a
#= ok 1
timeline b
#= ok 2
fence f a 5
#= ok
fence g b 2
#= ok
fence h a 7
#= ok
END
order=0
for names in "f g h" "f h g" "g f h" "g h f" "h f g" "h g f"; do
    read -r first second third <<<"$names"
    order=$((order + 1))
    cat <<END
merge q$order $first $second
#= ok
merge r$order q$order $third
#= ok
merge s$order r$order r$order
#= ok
info r$order
#= ok r$order 0 2
#= fence a sw_sync 7 0
#= fence b sw_sync 2 0
info s$order
#= ok s$order 0 2
#= fence a sw_sync 7 0
#= fence b sw_sync 2 0
END
done
