#!/usr/bin/env bash
# Dumps in tools that others wrote. Made logs' dumps go through GTKWave's own vcd2fst and back with the same changes; sigrok counts their pins by
# its graycode decoder, and its counts are the replay's CNTR; the dump of docs/WAVEFORM.md is read by all of them. SEED chooses the logs.
set -u
cd "$(dirname "$0")/.." || exit 2
. check/tools.sh
need cargo cargo
need vcd2fst gtkwave
need sigrok-cli sigrok-cli
work=$(mktemp -d)
trap 'rm -rf "$work"' EXIT
seed=${SEED:-$(date +%s)}
second=target/check/release/rvz-check
waves=$work/waves

build() {
    must 'waveform: the library and the program build' rt_builds
    must 'waveform: the second program builds' second_builds
    must 'waveform: waves.c is C99' $cc -std=c99 -O2 -Wall -Wextra -Wpedantic -Werror -Iinclude -o "$waves" examples/waves.c target/staticlib/librivandoze.a
    must 'waveform: waves.c is C++' g++ -x c++ -std=c++11 -Wall -Wextra -Wpedantic -Werror -fsyntax-only -Iinclude examples/waves.c
}

# made KIND NUMBER: a log's text. All ten encoders are enabled and have pins 0 before the first tick; then KIND steps moves each pin
# alone, so that nothing is a double change, and KIND any gives any pins. Now and then several records come at one time, or none between
# two waits. Each encoder's CNTR is read at the end.
made() {
    awk -v kind="$1" -v seed="$((seed + $2))" 'BEGIN {
        srand(seed)
        print "write select 0xAAAAAAAAAA"
        for (i = 0; i < 10; i++) print "write encoder " i " cnfg 1\npins encoder " i " 0"
        split("0 1 3 2", ring, " ")
        for (n = 0; n < 300; n++) {
            i = int(10 * rand())
            if (kind == "steps") {
                place[i] = (place[i] + (rand() < 0.7 ? 1 : 3)) % 4
                print "ticks " 1 + int(4 * rand()) "\npins encoder " i " " ring[place[i] + 1]
            } else {
                if (rand() < 0.6) print "ticks " int(4000 * rand())
                print "pins encoder " i " " int(4 * rand())
            }
        }
        for (i = 0; i < 10; i++) print "read encoder " i " cntr"
    }'
}

# What a dump says: TIME NAME VALUE for each wire as it stands at each time at which it changed, in one order; x is not told.
changes() {
    awk '/^\$var/ { name[$4] = $5; next }
        /^#/ { flush(); time = substr($0, 2); next }
        /^[01]/ { last[substr($0, 2)] = substr($0, 1, 1) }
        function flush(code) { for (code in last) print time, name[code], last[code]; delete last }
        END { flush() }' "$1" | sort -k1n -k2
}

# through NAME DUMP: vcd2fst and back.
through() {
    vcd2fst "$2" "$work/fst" >/dev/null && fst2vcd "$work/fst" >"$work/back"
    same "waveform: $1 through vcd2fst and back has the same changes" "$(changes "$2" | cksum)" "$(changes "$work/back" | cksum)"
}

# counted ENCODER DUMP: sigrok's count. Its decoder tells a count when the next begins, so it gets a copy with one more step at the end; some
# builds end in an error of Python's after their last line.
counted() {
    local a end
    a=$(awk -v n="bank0_encoder$1_A" '$5 == n { print $4 }' "$2")
    end=$(grep '^#' "$2" | tail -n 1 | tr -d '#')
    {
        cat "$2"
        printf '#%s\n%s%s\n#%s\n' $((end + 100)) "$(grep "^[01]$a\$" "$2" | tail -n 1 | cut -c1 | tr 01 10)" "$a" $((end + 200))
    } >"$work/longer.vcd"
    sigrok-cli -i "$work/longer.vcd" -I vcd -P "graycode:d0=bank0_encoder$1_A:d1=bank0_encoder$1_B" -A graycode=count 2>/dev/null |
        sed -n 's/^graycode-1: //p' | tail -n 1
}

# of KIND NUMBER: a made log's dump.
of() {
    made "$1" "$2" | "$second" from-text >"$work/log"
    run64 target/bin/rvz dump <"$work/log" >"$work/dump.vcd" 2>"$work/error"
    same "waveform: $1 $2 is dumped" "$(run64 "$waves" "$work/log" | cksum)" "$(cksum <"$work/dump.vcd")"
}

any_pins() {
    of any "$1"
    through "any $1" "$work/dump.vcd"
}

steps() {
    local i cntr
    of steps "$1"
    through "steps $1" "$work/dump.vcd"
    run64 target/bin/rvz <"$work/log" >"$work/readings"
    for i in 0 1 2 3 4 5 6 7 8 9; do
        cntr=$(sed -n "$((i + 1))p" "$work/readings")
        [ "$cntr" -lt 2147483648 ] || cntr=$((cntr - 4294967296))
        same "waveform: sigrok counts encoder $i of steps $1 as the replay does" "$cntr" "$(counted "$i" "$work/dump.vcd")"
    done
}

made_logs() {
    local n
    for ((n = 1; n <= $(cases 3); n++)); do
        beside steps $n
    done
    for ((n = 1; n <= $(cases 6); n++)); do
        beside any_pins $n
    done
    told
}

page() {
    awk '/^```/ { inside = !inside; next } inside' docs/WAVEFORM.md >"$work/page.vcd"
    printf '%s\n' 'write select 0xAAAAAAAAAA' 'bank 1 write select 10' 'ticks 4' 'pins encoder 3 0' 'ticks 4' 'pins encoder 3 1' 'pins encoder 3 3' \
        'bank 1 pins encoder 0 2' 'ticks 0' 'bank 1 pins encoder 0 2' 'ticks 4' 'pins encoder 3 3' 'ticks 4' 'pins encoder 3 0' 'ticks 1000' 'trailer edition 2' |
        "$second" from-text >"$work/log"
    run64 target/bin/rvz dump <"$work/log" >"$work/dump.vcd"
    same 'waveform: the dump of the log of docs/WAVEFORM.md, byte for byte' '' "$(cmp "$work/page.vcd" "$work/dump.vcd" 2>&1)"
    through 'the dump of docs/WAVEFORM.md' "$work/page.vcd"
    same 'waveform: the reader on the dump of docs/WAVEFORM.md' \
        '100 ns bank 0 encoder 3 pins 00
200 ns bank 0 encoder 3 pins 11
200 ns bank 1 encoder 0 pins 01
400 ns bank 0 encoder 3 pins 00' "$(run64 "$waves" - "$work/page.vcd")"
    same 'waveform: sigrok finds the wires of docs/WAVEFORM.md' 'bank0_encoder3_A bank0_encoder3_B bank1_encoder0_A bank1_encoder0_B' \
        "$(sigrok-cli -i "$work/page.vcd" -I vcd --show 2>/dev/null | sed -n 's/^- \(.*\): logic$/\1/p' | paste -s -d ' ')"
}

# The longest dump of one bank: 2,046 records after the SELECT, ticks and then both pins of an encoder, over and over.
longest() {
    awk 'BEGIN {
        print "write select 0xAAAAAAAAAA"
        for (n = 0; n < 1023; n++) print "ticks 4294967295\npins encoder " n % 10 " " (int(n / 10) % 2 ? 3 : 0)
    }' | "$second" from-text >"$work/log"
    run64 target/bin/rvz dump <"$work/log" >"$work/dump.vcd"
    same 'waveform: the longest dump of one bank' '23371 bytes, 1023 entries' \
        "$(wc -c <"$work/dump.vcd") bytes, $(run64 "$waves" - "$work/dump.vcd" | wc -l) entries"
}

refusals() {
    printf 'write select 10\nwrite encoder 0 cnfg 1\npins encoder 1 0\n' | "$second" from-text >"$work/log"
    same 'waveform: a refused record' 'refused 9 record 2' "$(run64 target/bin/rvz dump <"$work/log" 2>&1 >/dev/null)"
    same 'waveform: it leaves standard output empty' '' "$(run64 target/bin/rvz dump <"$work/log" 2>/dev/null)"
    same 'waveform: no log' 'refused 2' "$(run64 target/bin/rvz dump </dev/null 2>&1 >/dev/null)"
    printf '$timescale 1 ns $end\n' >"$work/cut.vcd"
    same 'waveform: no dump' 'refused 20' "$(run64 "$waves" - "$work/cut.vcd" 2>&1)"
}

build
echo "waveform: seed $seed"
page
refusals
longest
made_logs
exit $failed
