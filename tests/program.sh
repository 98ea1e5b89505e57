#!/usr/bin/env bash
# The program on logs, from outside: what it prints for a log on standard input against what the second program prints, for files, for
# pipes that deliver in pieces, and for inputs of every awkward length. SEED chooses the made logs.
set -u
cd "$(dirname "$0")/.." || exit 2
. check/tools.sh
need cargo cargo
work=$(mktemp -d)
trap 'rm -rf "$work"' EXIT
seed=${SEED:-$(date +%s)}
second=target/check/release/rvz-check

build() {
    must 'program: the program builds' rt_builds
    must 'program: the second program builds' second_builds
}

# rvz ARGUMENT..: the program, on standard input. A status other than 0 is part of what it says.
rvz() {
    run64 target/bin/rvz "$@" || echo "status $?"
}

log_of() {
    "$second" from-text >"$work/log"
}

# says NAME WANTED: one test of the program on the log at hand.
says() {
    same "program: $1" "$2" "$(rvz <"$work/log")"
}

# in_pieces LEN: standard input, so many bytes at a time, with pauses that a reader sees.
in_pieces() {
    while head -c "$1" >"$work/piece" && [ -s "$work/piece" ]; do
        cat "$work/piece"
        sleep 0.02
    done
}

by_hand() {
    log_of <<'LOG'
write select 10
write encoder 0 cnfg 1
pins encoder 0 0
pins encoder 0 1
read encoder 0 cntr
LOG
    says 'the whole log of the paper' $'1\napplied 5 refused 0'
    same 'program: the same from a pipe' $'1\napplied 5 refused 0' "$(cat "$work/log" | rvz)"
    same 'program: the same in pieces of 7 bytes' $'1\napplied 5 refused 0' "$(in_pieces 7 <"$work/log" | rvz)"
    same 'program: the same byte by byte' $'1\napplied 5 refused 0' "$(in_pieces 1 <"$work/log" | rvz)"

    printf 'read select\nwrite select 10\nread select\nread i2c go\nread select\n' | log_of
    says 'readings before a refused record are printed' $'0\n10\napplied 3 refused 7'
    printf 'write select 10\nwrite encoder 0 cnfg 1\npins encoder 0 0\npins encoder 0 2\nread encoder 0 cntr\n' | log_of
    says 'a count below 0 is printed as its bit pattern' $'4294967295\napplied 5 refused 0'
    printf 'write select 1\nwrite pwm 0 cnfg 4\nwrite pwm 0 cs 1\nwrite pwm 0 max 998\nwrite pwm 0 cmp 3\nticks 4000000000\nread pwm 0 cntr\nread pwm 0 level\n' | log_of
    says 'one record of 4,000,000,000 ticks' $'4\n0\napplied 8 refused 0'
    printf 'write select 0xFF5555557F\n' | log_of
    says 'a SELECT that is not allowed' 'applied 0 refused 10'
}

# Inputs that are too short or too long, and the longest.
by_length() {
    : >"$work/log"
    says 'empty input' 'applied 0 refused 2'
    same 'program: closed standard input' 'applied 0 refused 2' "$(rvz <&-)"
    printf 'Q' >"$work/log"
    says 'one byte' 'applied 0 refused 2'
    printf '\1\0QM\1\0Q' >"$work/log"
    says 'seven bytes' 'applied 0 refused 2'
    printf '' | log_of
    says 'the bare trailer' 'applied 0 refused 0'

    { printf 'note "12345678"\n'; yes 'read select' | head -n 2047; } | log_of
    local all_read
    all_read=$(yes 0 | head -n 2047; echo 'applied 2047 refused 0')
    says 'a log of 32,768 bytes, all reads' "$all_read"
    same 'program: the same in pieces of 5,000 bytes' "$all_read" "$(in_pieces 5000 <"$work/log" | rvz)"
    cp "$work/log" "$work/longest"
    { printf x; cat "$work/longest"; } >"$work/log"
    says '32,769 bytes' 'applied 0 refused 1'
    same 'program: the same in pieces of 5,000 bytes' 'applied 0 refused 1' "$(in_pieces 5000 <"$work/log" | rvz)"
    { cat "$work/longest"; printf x; } >"$work/log"
    says '32,769 bytes, the last one too many' 'applied 0 refused 1'
    { head -c 67232 /dev/zero; cat "$work/longest"; } >"$work/log"
    says '100,000 bytes' 'applied 0 refused 1'
    same 'program: 100,000 bytes from a pipe' 'applied 0 refused 1' "$(cat "$work/log" | rvz)"
    same 'program: input without an end' 'applied 0 refused 1' "$(rvz </dev/zero)"
}

# Logs by chance, a third of them damaged at the end, against the second program, byte by byte.
by_chance() {
    local i log
    local most
    most=$(cases 60)
    for ((i = 1; i <= most; i++)); do
        "$second" generate $((seed + i)) 2047 4294967295 40 >"$work/log"
        [ $((i % 3)) -ne 0 ] || truncate -s "-$((i % 7))" "$work/log"
        rvz <"$work/log" >"$work/got"
        "$second" <"$work/log" >"$work/wanted"
        cmp -s "$work/wanted" "$work/got" && continue
        log=target/failed/program-$((seed + i)).log
        mkdir -p target/failed
        cp "$work/log" "$log"
        echo "FAIL program: a log by chance, $log"
        diff "$work/wanted" "$work/got" | head -n 10 | sed 's/^/    /'
        failed=1
        return
    done
    echo "ok program: $most logs by chance"
}

# judges NAME WANTED: one test of `rvz judge` on the log and the transcript at hand.
judges() {
    same "program: judge, $1" "$2" "$(rvz judge "$work/transcript" <"$work/log")"
}

# A count of 1 and one of -1 with other readings beside them, then logs where negated is the same, and refused ones.
judge_by_hand() {
    log_of <<'LOG'
write select 10
read select
write encoder 0 cnfg 1
pins encoder 0 0
pins encoder 0 1
read encoder 0 cntr
pins encoder 0 0
pins encoder 0 2
read encoder 0 cntr
read encoder 0 stat
LOG
    "$second" transcript <"$work/log" >"$work/right"
    cp "$work/right" "$work/transcript"
    judges 'a right transcript' same
    same 'program: judge, the same from a pipe' same "$(rvz judge <(cat "$work/right") <"$work/log")"
    same 'program: judge, the log in pieces of 7 bytes' same "$(in_pieces 7 <"$work/log" | rvz judge "$work/right")"
    "$second" transcript negated <"$work/log" >"$work/transcript"
    judges 'a negated transcript' negated
    { head -c 24 "$work/right"; printf '\2\0\0\0\0\0\0\0'; } >"$work/transcript"
    judges 'the last reading is another' 'different 3'
    { printf '\0\0\0\0\0\0\0\1'; tail -c 24 "$work/right"; } >"$work/transcript"
    judges 'the first reading is another, in its highest byte' 'different 0'
    { head -c 15 "$work/right"; printf '\200'; tail -c 16 "$work/right"; } >"$work/transcript"
    judges 'a count with its highest bit turned over' 'different 1'
    head -c 24 "$work/right" >"$work/transcript"
    judges 'one reading too few' 'refused 17'
    head -c 31 "$work/right" >"$work/transcript"
    judges 'one byte too few' 'refused 17'
    { cat "$work/right"; printf '\0'; } >"$work/transcript"
    judges 'one byte too many' 'refused 17'
    { cat "$work/right"; head -c 100000 /dev/zero; } >"$work/transcript"
    judges 'far too many' 'refused 17'
    same 'program: judge, a transcript without an end' 'refused 17' "$(rvz judge /dev/zero <"$work/log")"
    : >"$work/transcript"
    judges 'nothing' 'refused 17'
    : >"$work/log"
    judges 'nothing of no log' 'refused 2'
    printf 'ticks 1\n' | log_of
    judges 'nothing of a log without a reading' both
    printf 'read i2c go\n' | log_of
    judges 'a refused record comes before the length' 'refused 7'
    printf 'write select 10\nread encoder 0 cntr\n' | log_of
    printf '\0\0\0\0\0\0\0\0' >"$work/transcript"
    judges 'a count of 0' both
    { yes 'read select' | head -n 2047; } | log_of
    head -c 16376 /dev/zero >"$work/transcript"
    judges 'the longest transcript' both
    { head -c 16375 /dev/zero; printf '\1'; } >"$work/transcript"
    judges 'the longest transcript, its last byte another' 'different 2046'
}

# Logs by chance, some refused, with right, negated and damaged transcripts.
judge_by_chance() {
    local i
    local most
    most=$(cases 60)
    for ((i = 1; i <= most; i++)); do
        "$second" generate $((seed + i)) 300 4294967295 20 >"$work/log"
        "$second" transcript $([ $((i % 2)) -eq 0 ] || echo negated) <"$work/log" >"$work/transcript"
        [ $((i % 5)) -ne 0 ] || printf '\1' | dd of="$work/transcript" bs=1 seek=$((8 * (i % 3))) conv=notrunc status=none
        [ $((i % 7)) -ne 0 ] || truncate -s "-$((i % 11))" "$work/transcript" 2>/dev/null
        rvz judge "$work/transcript" <"$work/log" >"$work/got"
        "$second" judge "$work/transcript" <"$work/log" >"$work/wanted"
        cmp -s "$work/wanted" "$work/got" && continue
        same "program: judge, made log $((seed + i))" "$(cat "$work/wanted")" "$(cat "$work/got")"
        return
    done
    echo "ok program: judge, $most transcripts by chance"
}

judge_usage() {
    local usage
    usage=$(rvz help </dev/null)
    same 'program: the usage names judge' 1 "$(grep -c '^ *rvz judge ' <<<"$usage")"
    same 'program: judge without a file is the usage' "$usage" "$(rvz judge </dev/null)"
    same 'program: judge with two files is the usage' "$usage" "$(rvz judge "$work/log" "$work/log" </dev/null)"
}

# shrinks NAME: what `rvz shrink` writes for the log at hand is the log at $work/wanted, and nothing is said.
shrinks() {
    run64 target/bin/rvz shrink <"$work/log" >"$work/smaller" 2>"$work/said"
    cmp -s "$work/wanted" "$work/smaller"
    same "program: shrink, $1" '0 ' "$? $(cat "$work/said")"
}

# smaller_is TEXT..: the smaller log that is wanted, one record an argument.
smaller_is() {
    printf '%s\n' "$@" | "$second" from-text >"$work/wanted"
}

# unshrinkable NAME WANTED: a refusal is told on standard error, and standard output stays empty.
unshrinkable() {
    run64 target/bin/rvz shrink <"$work/log" >"$work/smaller" 2>"$work/said"
    same "program: shrink, $1" "$2, 0 bytes" "$(cat "$work/said"), $(wc -c <"$work/smaller") bytes"
}

shrink_by_hand() {
    local pair=('write select 0xAA' 'write encoder 0 cnfg 1' 'write encoder 1 cnfg 1')
    printf '%s\n' 'ticks 0' 'ticks 1' 'ticks 0' | log_of
    smaller_is 'ticks 1'
    shrinks 'ticks of 0'
    printf '%s\n' "${pair[@]}" 'pins encoder 0 2' 'pins encoder 0 2' 'read encoder 0 cntr' 'pins encoder 0 2' 'pins encoder 1 2' | log_of
    smaller_is "${pair[@]}" 'pins encoder 0 2' 'read encoder 0 cntr' 'pins encoder 1 2'
    shrinks 'pins that repeat, twice, and another encoder'
    printf '%s\n' "${pair[@]}" 'pins encoder 0 2' 'pins encoder 0 3' 'pins encoder 0 2' | log_of
    cp "$work/log" "$work/wanted"
    shrinks 'pins equal to the last but one'
    printf '%s\n' "${pair[@]}" 'pins encoder 0 2' 'pins encoder 1 2' 'write encoder 0 cnfg 1' 'pins encoder 0 2' 'pins encoder 1 2' | log_of
    smaller_is "${pair[@]}" 'pins encoder 0 2' 'pins encoder 1 2' 'write encoder 0 cnfg 1' 'pins encoder 0 2'
    shrinks 'a write to one CNFG, of the value that was there'
    printf '%s\n' "${pair[@]}" 'pins encoder 0 2' 'pins encoder 1 2' 'write select 0xAA' 'pins encoder 0 2' 'pins encoder 1 2' | log_of
    cp "$work/log" "$work/wanted"
    shrinks 'a write to SELECT, of the value that was there'
    printf '%s\n' 'note "kept"' 'ticks 0' 'ticks 0' | log_of
    smaller_is 'note "kept"'
    shrinks 'notes, and no record left'
    printf '' | log_of
    cp "$work/log" "$work/wanted"
    shrinks 'the bare trailer'
    { printf 'note "12345678"\n'; yes 'ticks 0' | head -n 2047; } | log_of
    smaller_is 'note "12345678"'
    shrinks 'a log of 32,768 bytes, all dropped'
    { printf 'note "12345678"\n'; yes 'ticks 1' | head -n 2047; } | log_of
    cp "$work/log" "$work/wanted"
    shrinks 'a log of 32,768 bytes, all kept'

    : >"$work/log"
    unshrinkable 'no log' 'refused 2'
    printf 'read select\nread i2c go\nticks 0\n' | log_of
    unshrinkable 'a refused record' 'refused 7 record 1'
    printf 'pins encoder 0 0\n' | log_of
    unshrinkable 'the first record refused' 'refused 9 record 0'
    head -c 32769 /dev/zero >"$work/log"
    unshrinkable 'a log that is too long' 'refused 1'
    same 'program: the usage names shrink' 1 "$(rvz help </dev/null | grep -c '^ *rvz shrink ')"
    same 'program: shrink with a file is the usage' "$(rvz help </dev/null)" "$(rvz shrink "$work/log" </dev/null)"
}

# Logs by chance: the smaller log has the same readings, and shrinking it again changes no byte.
shrink_by_chance() {
    local i dropped=0
    local most
    most=$(cases 40)
    for ((i = 1; i <= most; i++)); do
        "$second" generate $((seed + i)) 600 4294967295 0 >"$work/log"
        run64 target/bin/rvz shrink <"$work/log" >"$work/smaller" 2>"$work/said"
        if [ -s "$work/said" ]; then
            same "program: shrink, made log $((seed + i)) is refused as it replays" "$(rvz <"$work/log" | sed -n 's/.* \(refused .*\)/\1/p')" \
                "$(sed 's/ record.*//' "$work/said")" >"$work/out"
            [ "$failed" -eq 0 ] || { cat "$work/out"; return; }
            continue
        fi
        run64 target/bin/rvz shrink <"$work/smaller" | cmp -s "$work/smaller" - &&
            [ "$(rvz <"$work/log" | grep -v applied | cksum)" = "$(rvz <"$work/smaller" | grep -v applied | cksum)" ] && {
            [ "$(wc -c <"$work/smaller")" -eq "$(wc -c <"$work/log")" ] || dropped=$((dropped + 1))
            continue
        }
        same "program: shrink, made log $((seed + i))" 'the same readings, and once is enough' 'not so'
        return
    done
    same "program: shrink, some of $most logs by chance lose records" yes "$([ "$dropped" -gt 0 ] && echo yes)"
}

# signs NAME WANTED: one test of `rvz sign` on the log at hand.
signs() {
    same "program: sign, $1" "$2" "$(rvz sign <"$work/log")"
}

sign_by_hand() {
    local twin=('write select 0xAA' 'write encoder 0 cnfg 1' 'write encoder 1 cnfg 1')
    printf '%s\n' "${twin[@]}" 'pins encoder 0 0' 'pins encoder 0 1' 'pins encoder 1 3' 'pins encoder 0 3' 'pins encoder 1 1' | log_of
    signs 'one forward and one backward' $'bank 0 encoder 0: records 3 to 6, 3 pins, +2 steps, 0 double changes, travel +2 to +2: forward
bank 0 encoder 1: records 5 to 7, 2 pins, -1 step, 0 double changes, travel -1 to -1: backward
applied 8 refused 0'
    printf '%s\n' "${twin[@]}" 'pins encoder 0 2' | log_of
    signs 'one pin stands still' $'bank 0 encoder 0: records 3 to 3, 1 pin, 0 steps, 0 double changes, travel 0 to 0: still\napplied 4 refused 0'
    printf '%s\n' "${twin[@]}" 'pins encoder 0 0' 'pins encoder 0 3' 'pins encoder 0 2' 'pins encoder 0 0' | log_of
    signs 'one step short' $'bank 0 encoder 0: records 3 to 6, 4 pins, +2 steps, 1 double change, travel 0 to +4: open, 1 step short of a direction\napplied 7 refused 0'
    printf '%s\n' "${twin[@]}" 'pins encoder 0 0' 'pins encoder 0 3' 'pins encoder 0 0' 'pins encoder 0 3' 'pins encoder 0 1' | log_of
    signs 'an open one' $'bank 0 encoder 0: records 3 to 7, 5 pins, -1 step, 3 double changes, travel -7 to +5: open, 6 steps short of a direction\napplied 8 refused 0'
    printf '%s\n' "${twin[@]}" 'pins encoder 0 0' 'pins encoder 0 1' 'write encoder 0 cnfg 3' 'write encoder 0 cnfg 1' 'pins encoder 0 3' 'read i2c go' 'pins encoder 0 2' | log_of
    signs 'a reset between, and a refused record' $'bank 0 encoder 0: records 3 to 4, 2 pins, +1 step, 0 double changes, travel +1 to +1: forward
bank 0 encoder 0: records 7 to 7, 1 pin, 0 steps, 0 double changes, travel 0 to 0: still
applied 8 refused 7'
    printf 'read select\nticks 9\n' | log_of
    signs 'a log with no stretch' 'applied 2 refused 0'
    printf '' | log_of
    signs 'the bare trailer' 'applied 0 refused 0'
    : >"$work/log"
    signs 'no log' 'applied 0 refused 2'
    head -c 32769 /dev/zero >"$work/log"
    signs 'a log that is too long' 'applied 0 refused 1'
    head -c 64 /dev/zero >"$work/log"
    signs 'zeros' 'applied 0 refused 3'
    local number name
    for name in 3:3 4:4 5:5; do
        number=${name#*:}
        cp "examples/logs/refused-${name%:*}.log" "$work/log"
        signs "refused by $number" "applied 0 refused $number"
    done
    same 'program: the usage names sign' 1 "$(rvz help </dev/null | grep -c '^ *rvz sign ')"
    same 'program: sign with a file is the usage' "$(rvz help </dev/null)" "$(rvz sign "$work/log" </dev/null)"
    # As many stretches as a log can have: each pins record ends where its encoder is configured anew.
    { printf 'write select 10\n'; for _ in {1..1023}; do printf 'write encoder 0 cnfg 1\npins encoder 0 3\n'; done; } | log_of
    signs 'one stretch, configured again and again' "$("$second" sign <"$work/log")"
    { printf 'write select 10\nwrite encoder 0 cnfg 1\n'; for _ in {1..681}; do printf 'pins encoder 0 3\nwrite encoder 0 cnfg 3\nwrite encoder 0 cnfg 1\n'; done; } | log_of
    same 'program: sign, 681 stretches' "681 $("$second" sign <"$work/log" | cksum)" "$(rvz sign <"$work/log" | grep -c still) $(rvz sign <"$work/log" | cksum)"
}

# Logs by chance: the second program has every byte of the text.
sign_by_chance() {
    local i
    for i in {1..60}; do
        "$second" generate $((seed + i)) 2047 20 5 >"$work/log"
        [ "$("$second" sign <"$work/log" | cksum)" = "$(rvz sign <"$work/log" | cksum)" ] && continue
        same "program: sign, made log $((seed + i))" "$("$second" sign <"$work/log" | head -3)" "$(rvz sign <"$work/log" | head -3)"
        return
    done
    echo 'ok program: sign, 60 made logs'
}

# writes NAME WANTED ARGUMENT..: one test of `rvz write` on the records and the notes at hand. Wanted is what standard error has, and the log
# that is wanted is in $work/log; where something is refused, nothing may be on standard output.
writes() {
    local name=$1 wanted=$2
    shift 2
    run64 target/bin/rvz write "$@" <"$work/records" >"$work/written" 2>"$work/error"
    same "program: write, $name" "$wanted" "$(cat "$work/error")"
    if [ -n "$wanted" ]; then
        same "program: write, $name: standard output is empty" 0 "$(stat -c %s "$work/written")"
    else
        cmp -s "$work/log" "$work/written"
        same "program: write, $name: the log's bytes" 0 $?
    fi
}

# parts: the notes and the records of the log at hand, whose notes are so many bytes.
parts() {
    head -c "$1" "$work/log" >"$work/notes"
    tail -c +$(($1 + 1)) "$work/log" | head -c -8 >"$work/records"
}

write_by_hand() {
    printf 'note "bench 3"\nwrite select 10\nwrite encoder 0 cnfg 1\npins encoder 0 0\npins encoder 0 1\nread encoder 0 cntr\n' | log_of
    parts 7
    writes 'records behind notes' '' 1 "$work/notes"
    same 'program: write, and replayed' $'1\napplied 5 refused 0' "$(rvz <"$work/written")"
    same 'program: write, from a pipe' 0 "$(in_pieces 7 <"$work/records" | run64 target/bin/rvz write 1 <(cat "$work/notes") | cmp - "$work/log" >&2; echo $?)"
    printf '' | log_of
    : >"$work/records"
    writes 'no record and no notes' '' 1
    for edition in 0 65535 65536 65537 18446744073709551615; do
        writes "edition $edition" 'refused 4' "$edition"
    done
    for word in '' 1x -1 18446744073709551616; do
        writes "the edition '$word'" 'EDITION is no decimal number from 0 to 18446744073709551615' "$word"
    done
    writes 'notes that cannot be opened' "the notes' file cannot be opened" 1 "$work/none"
}

# The lengths of a run: whole records that are refused or not, and what is no multiple of 16.
write_by_length() {
    local len
    for len in 15 17 31 33 32751 32753; do
        head -c "$len" /dev/zero >"$work/records"
        writes "$len bytes" 'refused 5' 1
        writes "$len bytes of no edition" 'refused 4' 0
    done
    for len in 16 32 32752 32784; do
        head -c "$len" /dev/zero >"$work/records"
        writes "$len zero bytes" 'refused 7 record 0' 2
    done
    yes 'read select' | head -n 2047 | log_of
    parts 0
    writes 'the longest run' '' 1
    { head -c 32736 "$work/records"; printf '\2\0\0\0\0\0\0\0\1\0\0\0\0\0\0\0'; } >"$work/long"
    cp "$work/long" "$work/records"
    writes 'the last of 2,047 records is wrong' 'refused 7 record 2046' 1
    yes 'read select' | head -n 2047 | log_of
    parts 0
    printf 12345678 >"$work/notes"
    { cat "$work/notes" "$work/log"; } >"$work/whole" && mv "$work/whole" "$work/log"
    writes 'a log of 32,768 bytes' '' 1 "$work/notes"
    printf 123456789 >"$work/notes"
    writes 'one byte more' 'refused 1' 1 "$work/notes"
    writes 'notes without an end' 'refused 1' 1 /dev/zero
    head -c 16 "$work/records" >>"$work/records.more" && cat "$work/records" >>"$work/records.more" && mv "$work/records.more" "$work/records"
    writes '2,048 records' 'refused 1' 1
    cat "$work/records" "$work/records" >"$work/records.more" && mv "$work/records.more" "$work/records"
    writes '4,096 records' 'refused 1' 1
    printf '\1\0\0\0\0\0\0\0\0\0\0\0\0\1\0\0' >"$work/records"
    writes 'a SELECT out of its range' 'refused 8 record 0' 1
}

# Logs by chance that replay, or are refused by 9 or more: their parts written again give their bytes.
write_by_chance() {
    local i refused edition made=0
    local most
    most=$(cases 60)
    for ((i = 1; i <= most; i++)); do
        "$second" generate $((seed + i)) 300 4294967295 20 >"$work/log"
        refused=$("$second" <"$work/log" | sed -n 's/^applied .* refused //p')
        [ "$refused" -eq 0 ] || continue
        edition=$(tail -c 4 "$work/log" | od -An -t u2 -N2 | xargs)
        parts $(($(stat -c %s "$work/log") - 8 - $(tail -c 8 "$work/log" | od -An -t u4 -N4)))
        run64 target/bin/rvz write "$edition" "$work/notes" <"$work/records" >"$work/written" 2>"$work/error"
        made=$((made + 1))
        cmp -s "$work/log" "$work/written" && continue
        same "program: write, made log $((seed + i))" '' "$(cat "$work/error") or other bytes"
        return
    done
    [ "$made" -gt 0 ] && echo "ok program: write, $made made logs again"
}

write_usage() {
    local usage
    usage=$(rvz help </dev/null)
    same 'program: the usage names write' 1 "$(grep -c '^ *rvz write ' <<<"$usage")"
    same 'program: write without an edition is the usage' "$usage" "$(rvz write </dev/null)"
    same 'program: write with two files is the usage' "$usage" "$(rvz write 1 "$work/log" "$work/log" </dev/null)"
}

# streams NAME WANTED ARGUMENT..: one test of `rvz stream` on the records at hand, from a file.
streams() {
    same "program: stream, $1" "$2" "$(rvz stream "${@:3}" <"$work/records" 2>&1)"
}

stream_by_hand() {
    printf 'write select 10\nwrite encoder 0 cnfg 1\npins encoder 0 0\npins encoder 0 1\nread encoder 0 cntr\n' | log_of
    parts 0
    streams 'the whole log of the paper' $'1\napplied 5 refused 0' 1
    same 'program: stream, the same byte by byte' $'1\napplied 5 refused 0' "$(in_pieces 1 <"$work/records" | rvz stream 1)"
    same 'program: stream, the same in pieces of 33 bytes' $'1\napplied 5 refused 0' "$(in_pieces 33 <"$work/records" | rvz stream 1)"
    local edition word
    for edition in 0 5 18446744073709551615; do
        streams "edition $edition" 'applied 0 refused 4' "$edition"
    done
    for word in '' 1x -1 18446744073709551616; do
        streams "the edition '$word'" 'EDITION is no decimal number from 0 to 18446744073709551615' "$word"
    done
    same 'program: stream, what is no number is said on standard error' '' "$(run64 target/bin/rvz stream x <"$work/records" 2>/dev/null)"
    printf 123456789012345 >>"$work/records"
    streams '15 bytes left over' $'1\napplied 5 refused 5' 1
    printf 6 >>"$work/records"
    streams 'a last record that is refused' $'1\napplied 5 refused 7' 1
    printf 'left over' >>"$work/records"
    streams 'a refused record with bytes behind it' $'1\napplied 5 refused 7' 1
    : >"$work/records"
    streams 'no record' 'applied 0 refused 0' 4
    same 'program: stream, closed standard input' 'applied 0 refused 0' "$(rvz stream 1 <&-)"
    printf 1 >"$work/records"
    streams 'one byte' 'applied 0 refused 5' 1
    same 'program: stream, a refused record ends an input without an end' 'applied 0 refused 7' "$(rvz stream 1 </dev/zero)"
}

# seen LINES: waits until so many lines are in the output, at most ten seconds.
seen() {
    local i
    for i in {1..1000}; do
        [ "$(wc -l <"$work/seen")" -lt "$1" ] || break
        sleep 0.01
    done
    cat "$work/seen"
}

# A reading is there before the input ends, and before the next record.
stream_at_once() {
    printf 'write select 10\nread select\n' | log_of
    parts 0
    mkfifo "$work/pipe"
    : >"$work/seen"
    run64 target/bin/rvz stream 1 <"$work/pipe" >"$work/seen" &
    exec 7>"$work/pipe"
    cat "$work/records" >&7
    same 'program: stream, a reading while the input is open' 10 "$(seen 1)"
    head -c 20 "$work/records" >&7
    tail -c 12 "$work/records" >&7
    same 'program: stream, the next one' $'10\n10' "$(seen 2)"
    exec 7>&-
    wait $!
    same 'program: stream, and its end' $'10\n10\napplied 4 refused 0' "$(cat "$work/seen")"
}

# More records than any log has, 10 MB of them, half of them reads; and a last one that is refused.
stream_long() {
    printf 'write select 10\nread select\n' | log_of
    parts 0
    local i
    for i in {1..15}; do
        cat "$work/records" "$work/records" >"$work/more" && mv "$work/more" "$work/records"
    done
    for i in {1..10}; do cat "$work/records"; done | rvz stream 2 >"$work/got"
    { yes 10 | head -n 327680; echo 'applied 655360 refused 0'; } >"$work/wanted"
    cmp -s "$work/wanted" "$work/got"
    same 'program: stream, 10 MB of records' 0 $?
    head -c 16 /dev/zero | cat "$work/records" - >"$work/more"
    same 'program: stream, 65,536 records and a refused one' 'applied 65536 refused 7' "$(rvz stream 2 <"$work/more" | tail -n 1)"
}

# Logs by chance: the records, some in pieces, are replayed as their log is.
stream_by_chance() {
    local i most made=0 refused edition
    most=$(cases 60)
    for ((i = 1; i <= most; i++)); do
        "$second" generate $((seed + i)) 2047 4294967295 20 >"$work/log"
        rvz <"$work/log" >"$work/wanted"
        refused=$(sed -n 's/^applied .* refused //p' "$work/wanted")
        [ "$refused" -eq 0 ] || [ "$refused" -ge 7 ] || continue
        edition=$(tail -c 4 "$work/log" | od -An -t u2 -N2 | xargs)
        parts $(($(stat -c %s "$work/log") - 8 - $(tail -c 8 "$work/log" | od -An -t u4 -N4)))
        if [ $((i % 6)) -eq 0 ]; then
            in_pieces $((1000 + 37 * i)) <"$work/records" | rvz stream "$edition" >"$work/got"
        else
            rvz stream "$edition" <"$work/records" >"$work/got"
        fi
        made=$((made + 1))
        cmp -s "$work/wanted" "$work/got" && continue
        same "program: stream, made log $((seed + i))" "$(tail -n 1 "$work/wanted")" "$(tail -n 1 "$work/got") or other readings"
        return
    done
    [ "$made" -gt 0 ]
    same "program: stream, $made made logs" 0 $?
}

stream_usage() {
    local usage
    usage=$(rvz help </dev/null)
    same 'program: the usage names stream' 1 "$(grep -c '^ *rvz stream ' <<<"$usage")"
    same 'program: stream without an edition is the usage' "$usage" "$(rvz stream </dev/null)"
    same 'program: stream with a second word is the usage' "$usage" "$(rvz stream 1 2 </dev/null)"
}

judged() {
    judge_by_hand
    judge_by_chance
    judge_usage
}

written() {
    write_by_hand
    write_by_length
    write_by_chance
    write_usage
}

streamed() {
    stream_by_hand
    stream_at_once
    stream_long
    stream_by_chance
    stream_usage
}

build
echo "seed $seed"
for tests in by_hand by_length by_chance shrink_by_hand shrink_by_chance sign_by_hand sign_by_chance judged written streamed; do
    beside $tests
done
told
exit $failed
