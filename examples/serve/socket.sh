#!/usr/bin/env bash
# A client at the Unix socket of hub.py: runs a command so often, each time while it has these resources.
#
#     socket.sh SOCKET "NAME .." TIMES COMMAND ..
set -euo pipefail
source "$(dirname "${BASH_SOURCE[0]}")/dine.sh"
socket=$1 names=$2 times=$3
shift 3

dine_open socat - "UNIX-CONNECT:$socket"
dine_ask hello
for ((time = 0; time < times; time++)); do
    dine_take "$names" "$@"
done
dine_close
