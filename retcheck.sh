#!/usr/bin/env bash
# Runs retcheck in a folder, or on the sample. Proves and builds it first where there is no program yet.
set -eu
root=$(cd "$(dirname "$0")" && pwd)
folder=${1:-$root/crates/retcheck/data}
program=$root/crates/retcheck/out/retcheck
if [ ! -x "$program" ]; then
    (cd "$root/crates/retcheck" && rt run >&2)
fi
cd "$folder"
exec "$program"
