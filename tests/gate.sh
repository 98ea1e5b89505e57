#!/usr/bin/env bash
# The gate itself: on a small repository it passes, and each fault that it must see ends it with a status other than 0 and a last
# line that counts a failure.
set -u
here=$(cd "$(dirname "$0")/.." && pwd)
work=$(mktemp -d)
trap 'rm -rf "$work"' EXIT

# A repository of one library and one program, which passes.
plant() {
    rm -rf "$work/repo"
    mkdir -p "$work/repo/crates/say/src" "$work/repo/crates/bits" "$work/repo/tests"
    cp -r "$here/.ci" "$work/repo/.ci"
    cp -r "$here"/crates/bits/specs "$work/repo/crates/bits"
    cd "$work/repo" || exit 1
    mkdir crates/bits/src
    cat >crates/bits/src/lib.rt <<'RT'
// A truth value as the bit that a register shows of it.
#![tactic(auto)]

ghost use Rattle.std.specs.Prelude.{◌≡◌, ◌≤◌};
ghost use Rattle.bits.specs.Bits.{num};

pub fn number(b: bool) -> u8
    ensures { (result ≡ num b) × (result ≤ 1) }
{
    if b { 1 } else { 0 }
}
RT
    printf 'bits:\nsay:\n' >crates.txt
    cat >crates/say/src/main.rt <<'RT'
// Says one word.
#![tactic(auto)]

use std::io;

fn main(rt: HostRuntime) -> io::Result<()> {
    println!(rt; "said")?;
    Ok(())
}
RT
    echo said >crates/say/stdout
    mkdir -p crates/bits/must-fail
    printf 'file: src/lib.rt\nold: { 1 }\nnew: { 0 }\n' >crates/bits/must-fail/never.edit
    printf '#!/bin/sh\necho ok planted\n' >tests/planted.sh
    chmod +x tests/planted.sh
    git init -q . && git add -A && git -c user.name=t -c user.email=t@t commit -qm planted
}

# expect STATUS PATTERN NAME [SAID]: runs the gate here and looks at its status (0 or not) and its last line, and for what it must have said.
expect() {
    local status last
    bash .ci/run >"$work/out" 2>&1
    status=$?
    last=$(tail -n 1 "$work/out")
    if { [ "$status" -eq 0 ] && [ "$1" = 0 ]; } || { [ "$status" -ne 0 ] && [ "$1" != 0 ]; }; then
        if [[ $last =~ $2 ]] && grep -qF -- "${4-}" "$work/out"; then
            echo "ok gate: $3"
            return
        fi
    fi
    echo "FAIL gate: $3: status $status, last line: $last"
    tail -n 15 "$work/out" | sed 's/^/    /'
}

red='^[0-9]+ passed, [1-9][0-9]* failed$'

plant
expect 0 '^4 passed, 0 failed$' 'a sound repository passes, every crate, edit, program and test counted'

plant
sed -i 's/{ 1 }/{ 0 }/' crates/bits/src/lib.rt
rm -r crates/bits/must-fail
expect 1 "$red" 'a crate that is not proved' 'bits NOT PROVED'

plant
mkdir -p crates/loose/src
echo 'pub fn loose() -> u8 { 1 }' >crates/loose/src/lib.rt
expect 1 "$red" 'a crate that crates.txt does not list' 'no check reads'

plant
printf 'file: src/lib.rt\nold: // A truth value\nnew: // A truth\n' >crates/bits/must-fail/never.edit
expect 1 "$red" 'a must-fail edit that the prover accepts' 'NOT REFUSED'

plant
printf 'file: src/lib.rt\nold: { 2 }\nnew: { 0 }\n' >crates/bits/must-fail/other.edit
expect 1 "$red" 'a must-fail edit that cannot be applied' 'gate: rt ci has bad must-fail edits'

plant
echo unsaid >crates/say/stdout
expect 1 "$red" 'a program that writes something else' 'is not what its file stdout has'

# What follows is of the gate alone, so that something quicker stands for rt: it looks at the tree before it says anything, as rt does, which must be asked for
# all crates, over what earlier runs left, and it ends as it is told.
# answers TEXT STATUS [OK]: OK: its line before the last.
answers() {
    mkdir -p "$work/bin"
    cat >"$work/bin/rt" <<SH
#!/bin/sh
sleep 1
[ "\$*" = ci ] && [ -e crates.txt ] && [ -e target/left ] && [ -e crates/bits/out/left ] && [ ! -e target/kept ] || exit 7
echo looked
sleep 1
echo "${3-rt: ok; handles allowed: none; must-fail edits: 1 refused}"
echo "$1"
exit $2
SH
    chmod +x "$work/bin/rt"
}
script() {
    printf '#!/bin/sh\n%s\n' "$2" >"tests/$1.sh"
    chmod +x "tests/$1.sh"
}
PATH=$work/bin:$PATH

plant
mkdir -p target crates/bits/out
: >target/left
: >crates/bits/out/left
answers '3 passed, 0 failed' 0
expect 0 '^4 passed, 0 failed$' 'what rt counts and what the tests count are added, and rt is asked for all, over the tree as it stands'
answers '3 passed, 0 failed' 1
expect 1 "$red" 'rt that ends badly'
answers '3 passed, 1 failed' 0
expect 1 "$red" 'rt that counts a failure'
answers 'proved' 0
expect 1 "$red" 'rt that counts nothing'
answers '3 passed, 0 failed' 0 'rt: ok; handles allowed: none; must-fail edits: 4 refused, 1 of them only by a limit, 2 bad; every proof was done in this run'
expect 1 "$red" 'rt that tells of bad must-fail edits'
answers '3 passed, 0 failed' 0 'rt: say and the crates below passed'
expect 1 "$red" 'rt that does not say that all is well'

answers '3 passed, 0 failed' 0
script planted 'echo FAIL planted; exit 1'
expect 1 "$red" 'a test that fails'
script planted 'exit 0'
expect 1 "$red" 'a test script that runs no test'
script planted 'echo ok planted'
script slow 'sleep 2; echo ok slow'
expect 0 '^5 passed, 0 failed$' 'a slow test beside others is waited for and counted'
script slow 'sleep 1; echo ok slow; exit 3'
expect 1 "$red" 'a test beside others that ends badly'
rm tests/slow.sh

script reading 'echo ok reading; : >target/kept'
script planted '[ -e target/kept ] && rm target/kept && echo ok planted'
expect 0 '^5 passed, 0 failed$' 'a test beside the proofs begins once rt has looked at the tree, and is counted'
script reading 'sleep 2; echo FAIL reading'
script planted 'echo ok planted'
expect 1 "$red" 'a test beside the proofs that fails'
