#!/usr/bin/env bash
# The auditor's reading list: what the exported calls' contracts and the theorems rest on, and that none of it is how the code gets there.
set -u
cd "$(dirname "$0")/.." || exit 2
. check/tools.sh
work=$(mktemp -d)
trap 'rm -rf "$work"' EXIT
need python3 python3

must 'reading: no promise rests on how the code gets there' python3 check/reading.py
sed 's/^/    /' "$work/out"
lines=$(sed -n 's/^ *\([0-9]*\) lines, for .*/\1/p' "$work/out")
most=1172
if [ "$lines" -le "$most" ]; then
    echo "ok reading: at most $most lines"
else
    echo "FAIL reading: $lines lines, more than $most"
    failed=1
fi

# The same as a text: as many lines that count, and each call of the header.
python3 check/reading.py text >"$work/text"
of_sign=$(sed -n 's/^ *\([0-9]*\) more, for the call and .*/\1/p' "$work/out")
same 'reading: the text has every line of the list' $((lines + of_sign)) "$(sed '/^==== what C calls/,$d' "$work/text" | grep -cvE '^ *(--.*|//.*|)$|^==== ')"
same 'reading: the text ends with the contract of each call of the header' "$(grep -o '^uint64_t rvz_[a-z_]*' include/rivandoze.h | cut -d' ' -f2 | sort)" \
    "$(sed '1,/^==== what C calls/d' "$work/text" | sed -n 's/^pub extern "C" fn \([a-z_]*\)(.*/\1/p' | sort)"

# The rows of docs/READING.md: every name in them is in the tree; and what one of them says of public functions.
must 'reading: every name in the rows of docs/READING.md is in the tree, and every public function has a contract' python3 check/rows.py
sed 's/^/    /' "$work/out"

# What the scripts must see: a contract that rests on a How, and a name that is nowhere; in the rows a name, a theorem, a test and a sentence that
# are not there, and a function that promises nothing.
tar -c --exclude='crates/*/out' crates check docs tests include | tar -x -C "$work"
# planted PATTERN SED FILE [SCRIPT]: the script tells of it.
planted() {
    sed -i "$2" "$work/$3" && ! (cd "$work" && python3 "${4:-check/reading.py}") | grep -q "$1" && return 1
    cp "$3" "$work/$3"
}
must 'reading: a definition of How.antt is seen' planted 'rests on how the code gets there' \
    's/^play_of e rs room = .*/play_of e rs room = refusal_of/; s/^use Rattle.banks.specs.State.{fresh}/&\nuse Rattle.refusals.specs.How.{refusal_of}/' crates/replay/specs/Replay.antt
must 'reading: a name that is nowhere is seen' planted 'not found' \
    's/use Rattle.replay.specs.Replay.{replay_of}/use Rattle.replay.specs.Replay.{replay_of, nowhere}/; s/≡ written (replay_of/≡ nowhere (replay_of/' crates/rivandoze/src/logs.rt
rows=check/rows.py
must 'reading: a row with a wrong name is seen' planted 'not found: on_pin$' 's/`on_pins`/`on_pin`/' docs/READING.md $rows
must 'reading: a row whose definition is gone is seen' planted 'not found: place$' 's/^abbrev pub place :/abbrev pub moved :/' crates/encoder_pins/specs/Pins.antt $rows
must 'reading: a row whose theorem is not proved is seen' planted 'Encoders is not proved' 's/^pub encoders : Encoders/pub encoders : Type 0/' crates/encoder/proofs/Proved.antt $rows
must 'reading: a row whose test is gone is seen' planted 'tests/program.sh has no seven bytes' 's/seven bytes/7 bytes/' tests/program.sh $rows
must 'reading: a sentence without a row is seen' planted 'no sentence 01 pwm 6' '/^| 6 | writing CS/d' docs/READING.md $rows
must 'reading: a public function without a contract is seen' planted 'fresh has no contract' '/^    ensures { result ≡ fresh }/d' crates/bank/src/lib.rt $rows
exit $failed
