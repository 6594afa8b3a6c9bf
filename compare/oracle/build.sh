#!/bin/sh
# build.sh [FOLDER]: builds the oracle and prints its path.
# FOLDER holds the six Rust files of crate opc-alarm: below crates/opc-alarm/src, by themselves (model.rs, manager/state.rs, ..)
# or as src--crates--opc-alarm--src--*.rs.txt; by default it is ../shared/docs/src beside the repository. The files are copied
# byte for byte and compiled unchanged. Exit status 3: they are not there.
set -eu
here=$(cd "$(dirname "$0")" && pwd)
from=${1:-$here/../../../shared/docs/src}
to=$here/crates/opc-alarm/src
for file in model.rs manager/state.rs manager/admin.rs manager/security.rs manager/audit.rs manager/metrics.rs; do
  flat=src--crates--opc-alarm--src--$(echo "$file" | sed 's,/,--,').txt
  found=
  for candidate in "$from/crates/opc-alarm/src/$file" "$from/$file" "$from/$flat"; do
    [ ! -f "$candidate" ] || found=$candidate
  done
  [ -n "$found" ] || { echo "build.sh: $file is not in $from" >&2; exit 3; }
  cmp -s "$found" "$to/$file" || { rm -f "$to/$file"; cp "$found" "$to/$file"; }
done
cd "$here"
CARGO_TARGET_DIR="$here/target" cargo build --offline --release --quiet -j1
echo "$here/target/release/oracle"
