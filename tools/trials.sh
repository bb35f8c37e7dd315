#!/bin/sh
# Writes the trials anew: what they are run on (tools/trials.py), and what they must answer, by the reference in rust/, which
# shares nothing with the proved code. The checker's trial is one input to a line, so it is asked line by line.
set -eu
cd "$(dirname "$0")/.."
(cd rust && cargo build -q --offline --release -p reference)
bin=rust/target/release
python3 tools/trials.py
for t in console trial_route trial_calls; do
    $bin/reference-console < crates/$t/stdin > crates/$t/stdout
done
while IFS= read -r line; do
    printf %s "$line" | python3 -c 'import sys; sys.stdout.buffer.write(bytes.fromhex(sys.stdin.read()))' | $bin/reference-checker
done < crates/trial_checker/stdin > crates/trial_checker/stdout
