#!/usr/bin/env bash
# The last liquid of a steel over its composition: a path for each content of chromium and carbon, each run a process of its own, side by
# side by GNU parallel. A record for each composition: chromium, carbon, the finish, and the temperature of the last step.
set -eu
root=$(cd "$(dirname "${BASH_SOURCE[0]}")/.." && pwd)
command -v parallel >/dev/null || { echo 'parallel is missing (package parallel)' >&2; exit 70; }
export root

one() {
  local iron path
  iron=$(awk -v cr="$1" -v c="$2" 'BEGIN { printf "%.2f", 1 - cr - c }')
  path=$(mktemp)
  "$root/saltpeak" scheil --db "$root/examples/fe-cr-c.tdb" --t 1800 --amounts "FE=$iron,CR=$1,C=$2" --lattice 20 --gap 1 \
    --budget 1000000 --liquid LIQUID --step 20 --end 1300 --stop 0.001 >"$path"
  awk -v cr="$1" -v c="$2" '/^temperature/ { t = $2 } /^finish/ { printf "%s,%s,%s,%.2f\n", cr, c, $2, t / 100 }' "$path"
  rm -f "$path"
}
export -f one

echo chromium,carbon,finish,temperature
SHELL=$(command -v bash) parallel --keep-order one ::: 0.05 0.10 0.15 0.20 ::: 0.02 0.04 0.06
