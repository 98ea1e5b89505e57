#!/usr/bin/env bash
# The must-fail edits by what the prover says of each wrong program, tried by itself: it is refused for what it says, at what it changes.
set -u
cd "$(dirname "$0")/.." || exit 2
. check/tools.sh
work=$(mktemp -d)
trap 'rm -rf "$work"' EXIT
need python3 python3
failed=0

if ! python3 check/edits.py lines >"$work/lines"; then
    echo "FAIL edits: nothing is told of the edits"
    exit 1
fi
python3 check/edits.py "$work/lines" || failed=1

# What the script must see in what is said: a function that is refused for another one alone, at a bound, at another need, at what a call asks, for its shape; one of
# several that is proved; an edit that is none or that is not refused; and one of which nothing is said.
# planted PATTERN NAME SED: told of it.
planted() {
    sed "\\,^== $2\$,,/^== /{$3}" "$work/lines" >"$work/planted" && ! cmp -s "$work/lines" "$work/planted" && python3 check/edits.py "$work/planted" >"$work/told"
    grep "^FAIL edits: $2: " "$work/told" | grep -q "$1"
}
must 'edits: a function that is refused for another one alone is seen' planted 'climbed is not refused by itself' pwm/cmp_one_late \
    "s,src/lib.rt:[0-9]*:,src/lib.rt:$(awk '/fn fresh/ { print NR; exit }' crates/pwm/src/lib.rt):,"
must 'edits: one of several changed functions that is proved is seen' planted 'write is not refused by itself' pwm/registers_crossed '/^fn pwm::Pwm::write: /s/no.*/proved/'
must 'edits: a refusal at a bound is seen' planted 'refused at `cast-v`, not at its promise' edition/any_edition 's/(`returns[^`]*`)/(`cast-v`)/'
must 'edits: a refusal at another need than the promise is seen' planted 'climbed is refused at `overflow_add-k`' pwm/cmp_one_late 's/(`returns`)/(`overflow_add-k`)/'
must 'edits: a refusal at what a call asks is seen' planted 'climbed is refused at `moved-requires`' pwm/cmp_one_late 's/(`returns`)/(`moved-requires`)/'
must 'edits: a refusal for its shape is seen' planted 'refused for its shape' pwm/cmp_one_late 's/it is not proved that/& `rw`: no occurrence of it;/'
must 'edits: an edit that cannot be applied is seen' planted 'BAD EDIT' pwm/cmp_one_late 's/^refused.*/BAD EDIT: it changes nothing/'
must 'edits: an edit that is not refused is seen' planted 'NOT REFUSED' pwm/cmp_one_late 's/^refused.*/NOT REFUSED: the crate is still proved/'
must 'edits: one of which nothing is said is seen' planted 'nothing is told of it' pwm/cs_7_off 's/^== .*cs_7_off$/== pwm\/other/'

# Beside others: a wrong program in the function of another, one that is no function's, and one of a definition.
# crowded PATTERN LINE..: an edit of pwm with one more wrong program is told of.
crowded() {
    local edit=crates/pwm/must-fail/side_by_side.edit
    rm -rf "$work/tree" && mkdir -p "$work/tree" && tar -c --exclude='crates/*/out' crates/pwm | tar -x -C "$work/tree" && printf '%s\n' 'wrong: planted' "${@:2}" >>"$work/tree/$edit"
    { cat "$work/lines"; printf '== pwm/planted\nrefused, as it must be\n'; } >"$work/more"
    (cd "$work/tree" && python3 "$OLDPWD/check/edits.py" "$work/more") | grep -q "^FAIL edits: pwm/planted: $1"
}
must 'edits: two wrong programs in one function are seen' crowded 'climbed is changed by cmp_one_late too' 'file: src/lib.rt' 'old: (self.registers.cmp <= k)' 'new: true'
must 'edits: a constant beside others is seen' crowded 'beside others it must be of code, in a function' 'file: src/lib.rt' 'old: // ' 'new: //'
must 'edits: a definition beside others is seen' crowded 'beside others it must be of code, in a function' 'file: specs/Pwm.antt' 'old: nat_lt g.max counter' 'new: true'
exit $failed
