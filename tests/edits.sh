#!/bin/sh
# Each must-fail edit begins with a sentence, the rule that it breaks, and fits the file that it names: its text stands there once. rt tries the edits behind all proofs; here one that does not fit is told at once.
#
#     tests/edits.sh
#
# Ends with status 1 and names each edit that does not fit.
set -eu
cd "$(dirname "$0")/.."

find crates -path '*/must-fail/*.edit' | LC_ALL=C sort | LC_ALL=C xargs awk '
    function fault(what) { printf "%s: %s\n", edit, what; faults++ }
    function ended() { if (edit != "" && !pairs) fault("no text to replace") }
    FNR == 1 { ended(); edit = FILENAME; crate = edit; sub("/must-fail/.*", "", crate); split("", text); file = ""; pairs = 0; if ($0 !~ /^[^#].*\.$/ || $0 ~ /^(file|old|new):/) fault("it does not begin with a sentence") }
    /^file: / {
        file = crate "/" substr($0, 7)
        if (!(file in text)) {
            text[file] = ""
            while ((getline line < file) > 0) text[file] = text[file] line "\n"
            close(file)
        }
    }
    /^old: / { old = substr($0, 6) }
    /^new:/ {
        new = substr($0, 5)
        sub(/^ /, "", new)
        pairs++
        at = index(text[file], old)
        rest = substr(text[file], at + length(old))
        if (!at) fault("\"" old "\" is not in " file)
        else if (index(rest, old)) fault("\"" old "\" is in " file " more than once")
        else text[file] = substr(text[file], 1, at - 1) new rest
    }
    END { ended(); if (faults) { printf "%d edits do not fit\n", faults; exit 1 } }'
