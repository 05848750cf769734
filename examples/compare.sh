#!/usr/bin/env bash
# Runs the examples and compares what they give with the tables beside them. It ends with 1 where one differs.
set -u
here=$(cd "$(dirname "${BASH_SOURCE[0]}")" && pwd)
status=0
for table in property-diagram scheil grid; do
  if "$here/$table.sh" | cmp - "$here/$table.csv"; then
    echo "$table: as kept"
  else
    echo "$table: differs"
    status=1
  fi
done
exit "$status"
