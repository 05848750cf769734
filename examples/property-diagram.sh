#!/usr/bin/env bash
# How much of each phase a steel has over temperature: an equilibrium each 25 K, a record each on standard output.
set -eu
root=$(cd "$(dirname "${BASH_SOURCE[0]}")/.." && pwd)
database=$root/examples/fe-cr-c.tdb
command -v python3 >/dev/null || { echo 'python3 is missing (package python3)' >&2; exit 70; }
report=$(mktemp)
trap 'rm -f "$report"' EXIT

echo temperature,LIQUID,BCC_A2,FCC_A1,CEMENTITE,M23C6,GRAPHITE
for kelvin in $(seq 900 25 1900); do
  "$root/saltpeak" equilibrium --db "$database" --t "$kelvin" --amounts FE=0.8,CR=0.15,C=0.05 \
    --lattice 50 --gap 1 --budget 1000000 >"$report"
  "$root/tools/show.py" "$database" "$report" --row
done
