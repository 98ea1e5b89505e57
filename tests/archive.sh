#!/usr/bin/env bash
# The archive is reproducible: built in another folder, or on another processor, it has the same bytes. A line of tests/archive.sum has the sum of
# one that was built elsewhere, the sum of the code that it was built from, and the kit that built it. Where there is no line for this code and
# this kit, it is built once more, from nothing, in a second folder, which takes as long as the proofs of all that it rests on.
#   tests/archive.sh          the test
#   tests/archive.sh record   adds the line of this kit, from a build in a second folder; lines of other code go
set -u
cd "$(dirname "$0")/.." || exit 2
. check/tools.sh
work=$(mktemp -d)
trap 'rm -rf "$work"' EXIT
there=$work/elsewhere/crates/rivandoze/out/librivandoze.a

# rt verdict takes nothing from what earlier checks kept, here or elsewhere on the machine; rt lib does.
again() {
    mkdir "$work/elsewhere" && tar -c --exclude='crates/*/out' crates crates.txt | tar -x -C "$work/elsewhere" &&
        (cd "$work/elsewhere/crates/rivandoze" && rt verdict && rt lib)
}

sum_of() { sha256sum | cut -d' ' -f1; }
code=$(find crates/*/src -type f | LC_ALL=C sort | xargs sha256sum | sum_of)
line=" $code $(rt version)"

if [ "${1-}" = record ]; then
    again || exit
    { grep -F " $code " tests/archive.sum | grep -vF "$line"; echo "$(sum_of <"$there")$line"; } >"$work/sums"
    cp "$work/sums" tests/archive.sum
    exit
fi
must 'archive: the library builds' rt_builds
recorded=$(grep -F "$line" tests/archive.sum | cut -d' ' -f1)
if [ -n "$recorded" ]; then
    same 'archive: it has the bytes of the one that was built elsewhere' "$recorded" "$(sum_of <target/staticlib/librivandoze.a)"
else
    must 'archive: the library builds from nothing in a second folder' again
    must 'archive: both have the same bytes' cmp target/staticlib/librivandoze.a "$there"
fi
exit $failed
