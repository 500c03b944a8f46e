#!/usr/bin/env bash
# Makes the expected output of the programs anew, by the second program. Needs python3.
set -eu
cd "$(dirname "$0")/.."
python3 tools/explain_cases.py > crates/explain_cases/stdin
for name in explain explain_cases; do
    python3 tools/explain.py < "crates/$name/stdin" > "crates/$name/stdout"
done
