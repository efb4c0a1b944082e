#!/usr/bin/env bash
# Two jobs that must not work at the same time, in one script, with `hygienic serve` as a coprocess.
#
#     coproc.sh [PROGRAM]
set -euo pipefail
source "$(dirname "${BASH_SOURCE[0]}")/dine.sh"
program=${1:-hygienic}

dine_open "$program" serve --tasks 2 --conflicts 1
echo "$dine_header"
dine_call join && print=${reply#joined }
dine_call join && scan=${reply#joined }
dine_call conflict "$print" "$scan"

dine_call hungry "$print"
dine_call begin "$print"
echo "print: $reply"
dine_call hungry "$scan"
dine_call begin "$scan" || echo "scan: $reply"
dine_call finish "$print"
dine_call begin "$scan"
echo "scan: $reply"
dine_call finish "$scan"

dine_meal "$print" echo "print works in its meal"
dine_ask state "$print"
echo "$answer"
dine_close
