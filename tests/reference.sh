#!/usr/bin/env bash
# The second program: that it builds, and its own tests, the worked sums of the paper, each refusal given and not given, and its parts against plainer ones.
set -u
cd "$(dirname "$0")/.." || exit 2
. check/tools.sh
need cargo cargo
work=$(mktemp -d)
trap 'rm -rf "$work"' EXIT
out=$work/tests

must 'reference: the second program builds' second_builds
cargo test --release --offline --lib --test all --manifest-path check/Cargo.toml --target-dir target/check >"$out" 2>&1
status=$?
sed -n -e 's/^test \(.*\) \.\.\. ok$/ok reference: \1/p' -e 's/^test \(.*\) \.\.\. FAILED$/FAIL reference: \1/p' "$out"
if [ "$status" -ne 0 ]; then
    grep -q '\.\.\. FAILED$' "$out" || echo "FAIL reference: cargo test ended with status $status"
    grep -v '^test .* ok$' "$out" | tail -n 40 | sed 's/^/    /'
fi
exit "$status"
