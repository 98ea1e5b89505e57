#!/usr/bin/env bash
# The benchmark builds, finds the same answers on both sides, and tells for each row four figures and two or three ratios. The times are no test.
# The instructions are, on each side by itself: the library's are the same on every machine, since the kit compiles it, and the second
# program's go by the machine's Rust compiler, so that a ratio does too.
set -u
cd "$(dirname "$0")/.." || exit 2
. check/tools.sh
work=$(mktemp -d)
trap 'rm -rf "$work"' EXIT

# The most instructions of the library for a record that is written. The goal is twice the second program's, which takes 31 to 34.
written=42
# The most times as many of the library as it takes to replay the same log, where a call does more with it than that: the goals.
judged=1.30
signed=1.50
shrunk=2.50
dumped=2.00
streamed=1.30
# The most for a chunk of one record, which loads the state and keeps it again. The aim is 1,500.
stream_call=7000

# A row, the most instructions that the second program may take, the most that the library may, and the most times its replay's. What the library takes goes
# by the kit's compiler: these are for rattle-kit-13f, whose code for the same source takes more of them than the older kit's, most of all for reads and the finder.
limits="pins of one encoder|100|87
pins of ten encoders|100|87
pins, changing bank|100|87
reads|70|68
reads, changing bank|70|68
a mix, waits to 20 ticks|100|98
a mix, waits of any length|100|93
a mix over both banks|110|105
waits only, 20 PWM channels|950|930
waits only, 40 PWM channels|1650|1610
reads, judged|80|82|$judged
a mix, waits to 20 ticks, judged|100|101|$judged
the finder, a request|80|98
pins, changing bank, dumped|150|162|$dumped
a mix over both banks, dumped|130|152|$dumped
pins, changing bank, signed|135|123|$signed
a mix over both banks, signed|125|135|$signed
pins, changing bank, written|42|$written
a mix over both banks, written|44|$written
pins, a third as before, shrunk|115|103|$shrunk
a mix over both banks, shrunk|130|129|$shrunk
pins, changing bank, streamed|100|103|$streamed
reads, changing bank, streamed|70|84|$streamed
a mix over both banks, streamed|110|121|$streamed
a mix, a record a call|400|$stream_call"

# at_most NAME MOST GOT: one test. Nothing at all is no figure.
at_most() {
    if awk -v most="$2" -v got="${3:-0}" 'BEGIN { exit !(0 < got && got <= most) }'; then
        echo "ok $1"
    else
        echo "FAIL $1"
        printf '    at most: %s\n    got:     %s\n' "$2" "${3:-}"
        failed=1
    fi
}

must 'bench: the benchmark builds, and finds the same answers on both sides' check/bench.sh 2
sed 's/^/    /' "$work/out"
while IFS='|' read -r row second_most library_most replays_most; do
    wanted=6
    [ -z "$replays_most" ] || wanted=7
    line=$(grep -E "^$row( +[0-9]+\.[0-9]+){$wanted}\$" "$work/out")
    same "bench: $wanted figures for $row" 1 "$(grep -c . <<<"$line")"
    read -r _ _ _ library second _ replays <<<"${line#"$row"}"
    at_most "bench: instructions of the second program for $row" "$second_most" "${second:-}"
    at_most "bench: instructions of the library for $row" "$library_most" "${library:-}"
    [ -z "$replays_most" ] || at_most "bench: times the instructions of the library's replay for $row" "$replays_most" "${replays:-}"
done <<<"$limits"
same 'bench: no other row' "$(wc -l <<<"$limits")" "$(grep -cE '( +[0-9]+\.[0-9]+){6,}$' "$work/out")"
exit $failed
