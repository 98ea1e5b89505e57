#!/usr/bin/env bash
# A folder of logs that the second program makes from seeds, as many as are wanted: 000000.log and so on.
#   check/many.sh FOLDER NUMBER [SEED]
set -u
here=$(cd "$(dirname "$0")/.." && pwd)
[ $# -eq 2 ] || [ $# -eq 3 ] || { sed -n '2,/^set/s/^# \{0,1\}//p' "$0" | head -n 2 && exit 2; }
cargo build --release --offline --quiet --manifest-path "$here/check/Cargo.toml" --target-dir "$here/target/check" &&
    exec "$here/target/check/release/rvz-check" generate-many "$1" "$2" "${3:-1}"
