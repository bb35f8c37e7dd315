#!/bin/sh
# Runs a program of crates/NAME/out, which is for x86-64, on any machine: as it is, or by Debian's emulator (qemu-user).
#
#     tests/emulate.sh crates/console/out/console
set -eu
[ "$(uname -m)" != x86_64 ] || exec "$@"
exec qemu-x86_64 -L /usr/x86_64-linux-gnu "$@"
