#!/usr/bin/env bash
# A script that is one byte too long. A line ends with the last byte within the limit.
set -euo pipefail

"$(dirname "$0")/script-at-its-limit.sh"
printf 'x'
