#!/usr/bin/env bash
# A last line without a line feed is counted like any other.
set -euo pipefail

printf '\n\nxx'
