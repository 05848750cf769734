#!/usr/bin/env bash
# How a steel freezes, after Scheil: a record for each step on standard output, with the fraction of solid behind it and the share
# of each phase in the step's equilibrium. The path itself is kept under the name that is given, and is checked.
#
#     examples/scheil.sh [PATH]
set -eu
root=$(cd "$(dirname "${BASH_SOURCE[0]}")/.." && pwd)
database=$root/examples/fe-cr-c.tdb
command -v python3 >/dev/null || { echo 'python3 is missing (package python3)' >&2; exit 70; }
path=${1-$(mktemp)}
[ $# -gt 0 ] || trap 'rm -f "$path"' EXIT

"$root/saltpeak" scheil --db "$database" --t 1700 --amounts FE=0.8,CR=0.15,C=0.05 --lattice 200 --gap 1 --budget 10000000 \
  --liquid LIQUID --step 5 --end 1400 --stop 0 >"$path"
"$root/saltpeak" check --db "$database" --report "$path" >&2
"$root/tools/show.py" "$database" "$path" --row
