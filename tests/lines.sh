#!/bin/sh
# No line of code, of a proof or of a specification is longer than 200 characters: one has to be able to read it.
#
#     tests/lines.sh
#
# Ends with status 1 and names each longer line.
set -eu
cd "$(dirname "$0")/.."
most=200

# Characters, not octets: an octet that goes on with a character (0x80 to 0xBF) is none of its own.
find crates -path 'crates/*/out' -prune -o \( -name '*.antt' -o -path '*/src/*.rt' \) -print | LC_ALL=C sort | LC_ALL=C xargs awk -v most="$most" '
    { line = $0; gsub(/[\200-\277]/, "", line); n = length(line) }
    n > most { printf "%s:%d: %d characters\n", FILENAME, FNR, n; longer++ }
    END { if (longer) { printf "%d lines of more than %d characters\n", longer, most; exit 1 } }'
