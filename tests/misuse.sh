#!/usr/bin/env bash
# Bad use from C. Every call with lengths that are too short, just enough and too long, in memory whose every access beyond a buffer ends the
# program; and all calls by several threads at once, under ThreadSanitizer. On another processor than x86-64 the latter runs in the
# emulated system that tests/compare.sh has for the other sanitizers. SEED chooses the made logs.
set -u
cd "$(dirname "$0")/.." || exit 2
. check/tools.sh
. check/system64.sh
need cargo cargo
work=$(mktemp -d)
trap 'rm -rf "$work"' EXIT
need_system64
seed=${SEED:-$(date +%s)}
second=target/check/release/rvz-check
strict=(-std=c99 -O2 -Wall -Wextra -Wpedantic -Werror -Iinclude)
thread=(-g -pthread -fsanitize=thread -static-lib{tsan,gcc})
# Full logs are of the largest outputs too.
full='reads pins steps'

build() {
    must 'misuse: the library builds' rt_builds
    must 'misuse: the second program builds' second_builds
    must 'misuse: the misusing program builds' $cc "${strict[@]}" -o "$work/misuse" check/misuse/misuse.c target/staticlib/librivandoze.a
    must 'misuse: so it does with a library that touches what it may not' \
        $cc "${strict[@]}" "${wrapped[@]}" -o "$work/wrong" check/misuse/misuse.c target/staticlib/librivandoze.a
    must 'misuse: the threads build under ThreadSanitizer' $cc "${strict[@]}" "${thread[@]}" -o "$work/threads" check/misuse/threads.c target/staticlib/librivandoze.a
    must 'misuse: so do threads that share an output' \
        $cc "${strict[@]}" "${thread[@]}" -DSHARED -o "$work/shared" check/misuse/threads.c target/staticlib/librivandoze.a
}

# full_log KIND: 2,047 records behind eight bytes of notes.
full_log() {
    awk -v kind="$1" 'BEGIN {
        print "note \"12345678\""
        if (kind == "reads") for (i = 0; i < 2047; i++) print "read select"
        if (kind == "pins") { print "write select 10"; for (i = 1; i < 2047; i++) print "pins encoder 0 " i % 4 }
        if (kind == "steps") { print "write select 10\nwrite encoder 0 cnfg 1"; for (i = 2; i < 2047; i++) print "pins encoder 0 1" }
    }' | "$second" from-text >"$work/logs/$1.log"
}

# The samples that pass 1 to 5, full logs, and some by chance.
logs() {
    local kind number
    mkdir "$work/logs"
    for kind in $full; do
        full_log "$kind"
        same "misuse: the log of $kind is full" 32768 "$(wc -c <"$work/logs/$kind.log")"
    done
    echo "seed $seed"
    for ((number = 1; number <= $(cases 8); number++)); do
        "$second" generate $((seed + number)) 100 1000 20 >"$work/logs/$number.log"
    done
    mapfile -t samples < <(find examples/logs -name '*.log' ! -name 'refused-[1-5].log' | sort)
    all=("${samples[@]}" "$work"/logs/*.log)
}

# A crash, or a byte that is not as it must be, ends the program with another status than 0.
lengths() {
    local said wrong
    said=$(run64 "$work/misuse" "${all[@]}" 2>&1)
    same "misuse: every call on ${#all[@]} logs, with all lengths" "0 calls" "$? ${said##* }"
    echo "    $said"
    ulimit -c 0
    local calls='dump dump-read write shrink sign stream' wrongs
    wrongs=$(echo {reads,writes}-{before,behind}-output reads-{before,behind}-log writes-log judge-reads-{before,behind}-{log,transcript} judge-writes-transcript
        for call in $calls; do echo "$call"-{{reads,writes}-{before,behind}-output,reads-{before,behind}-input,writes-input}; done
        echo stream-writes-behind-state stream-spoils-state-{on-6,on-19,behind-a-refusal,at-the-end,when-counted})
    for wrong in $wrongs; do
        (WRONG=$wrong run64 "$work/wrong" examples/logs/{turns,refused-11}.log) >"$work/out" 2>&1
        same "misuse: a library that $wrong is seen" seen "$([ $? -eq 0 ] && echo 'let pass' || echo seen)"
    done
    said=$(WRONG=not run64 "$work/wrong" examples/logs/{turns,refused-11}.log 2>&1)
    same 'misuse: the same with nothing touched is let pass' "0 calls" "$? ${said##* }"
}

# The archive has no byte that a call could keep something in.
no_state() {
    same 'misuse: the library has no data that can be written' '0 0' "$(size target/staticlib/librivandoze.a | awk 'NR > 1 { data += $2; bss += $3 } END { print data, bss }')"
    same 'misuse: it calls nothing but what copies and compares bytes' '' \
        "$(nm -u target/staticlib/librivandoze.a | awk '$1 == "U" { print $2 }' | grep -vxE 'mem(cpy|move|set|cmp)|_GLOBAL_OFFSET_TABLE_' | xargs)"
}

# An emulated system lets nothing out behind the end of its input, so this input has none.
watched() { "${system[@]}" "$@" <>"$work/input" 2>&1; }

threads() {
    local wanted
    mkfifo "$work/input"
    must 'misuse: the threads can be watched' make_system64 "$work"/{threads,shared} "${all[@]}"
    wanted="8 threads, ${#all[@]} logs, all calls $((8 * 2 * ${#all[@]})) times"
    same 'misuse: eight threads find what one alone has found, and ThreadSanitizer sees nothing' "$wanted status 0" \
        "$(watched "$work/threads" 8 2 "${all[@]}") status $?"
    watched "$work/shared" 4 2 "${samples[@]}" >"$work/out"
    same 'misuse: an output that is shared is seen' '1 yes' "$([ $? -ne 0 ] && echo 1) $(grep -q 'ThreadSanitizer: data race' "$work/out" && echo yes)"
}

build
logs
lengths
no_state
threads
exit $failed
