#!/usr/bin/env bash
# Replay and judge, from outside: the library for C against the second program, on made, damaged and exhaustive logs and transcripts. Every
# byte of the output, of what lies around it and of what is lent to be read is compared.
#   tests/compare.sh                                what the gate runs
#   tests/compare.sh seconds N                      logs by chance for N seconds
#   tests/compare.sh dump                           the dump and its reader, which tests/dump.sh runs
#   tests/compare.sh dump-seconds N                 the same by chance for N seconds
#   tests/compare.sh write, shrink, sign, stream    these calls, which tests/write.sh and so on run
#   tests/compare.sh mistakes                       the comparison itself, without the library, which tests/mistakes.sh runs
#   tests/compare.sh write-seconds N                and likewise of the others
#   tests/compare.sh every-seconds N                every call of the header, the rates too, by chance for N seconds in all, with its counts
#   tests/compare.sh rerun CALL FILE OUT PATTERN PLACE EDITION
#                                                   one log again, as a failed test has printed it
# SEED chooses the logs, and CASES how many are by chance. Logs that fail are written to target/failed.
set -u
cd "$(dirname "$0")/.." || exit 2
. check/tools.sh
. check/system64.sh
need cargo cargo
work=$(mktemp -d)
# What was begun beside this ends first.
trap 'wait; rm -rf "$work"' EXIT
seed=${SEED:-$(date +%s)}
programs=target/check/release
# What the comparison's modes begin with: `dump-` where they are the dump's.
mode=
# The drivers, which all modes share.
drivers=$PWD/target/check/drivers
undefined=(-g -fsanitize=undefined -fno-sanitize-recover=all)
address=("${undefined[@]}" -fsanitize=address -static-lib{asan,ubsan,gcc})

# build_driver NAME FLAG..: unless it is newer than all that it is made of.
build_driver() {
    local to=$drivers/$1
    [ -e "$to" ] && [ -z "$(find tests/compare.sh check/compare include target/staticlib/librivandoze.a -newer "$to" -print -quit)" ] && return
    mkdir -p "$drivers" &&
        $cc -std=c99 -O2 -Wall -Wextra -Wpedantic -Werror -Iinclude "${@:2}" -o "$to.$$" check/compare/driver.c target/staticlib/librivandoze.a &&
        mv "$to.$$" "$to"
}

build() {
    must 'compare: the library builds' rt_builds
    must 'compare: the second program builds' second_builds
    must 'compare: the driver builds' build_driver plain
    must 'compare: the driver builds with a library that touches what it may not' build_driver wrong "${wrapped[@]}"
    must 'compare: the driver builds under UndefinedBehaviorSanitizer' build_driver undefined "${undefined[@]}"
    must 'compare: the driver builds under AddressSanitizer too' build_driver address "${address[@]}"
    must 'compare: so does the one with the wrong library' build_driver wrong-address "${address[@]}" "${wrapped[@]}"
}

# against NAME MODE DRIVER..: the comparison's own lines are the tests.
against() {
    "$programs/compare" "$2" "$seed" target/failed "${@:3}" | sed "s/^\(ok\|FAIL\) compare:/\1 $1:/"
    [ "${PIPESTATUS[0]}" -eq 0 ] || failed=1
}

# verdict MODE DRIVER..: the status of a comparison, how many tests failed, and for how many the driver gave no answer.
verdict() {
    "$programs/compare" "$1" "$seed" "$work" "${@:2}" >"$work/out" 2>&1
    echo "$? $(grep -c '^FAIL ' "$work/out") $(grep -c 'without an answer' "$work/out")"
}

# gives NAME WANTED MODE DRIVER..: one test, of the verdict.
gives() {
    same "$1" "$2" "$(verdict "${@:3}")"
}

# The comparison itself: a right driver is let pass, and each with a mistake is seen.
test_of_the_comparison() {
    beside gives 'compare: a driver without a mistake is let pass' '0 0 0' short "$programs/stand-in" none
    local mistakes mistake
    mapfile -t mistakes < <("$programs/stand-in" list)
    same 'compare: there are mistakes to make' 229 ${#mistakes[@]}
    for mistake in "${mistakes[@]}"; do
        beside gives "compare: a driver with the mistake $mistake is seen" '1 1 0' short "$programs/stand-in" "$mistake"
    done
    beside gives 'compare: a driver that ends without an answer is seen' '1 1 1' short false
    beside gives 'compare: a driver that ends badly behind the answers is seen' '1 1 0' \
        short bash -c '"$@"; exit 9' - "$programs/stand-in" none
    beside again sign-flipped
    beside again judge-low-32-bits
}

# again MISTAKE: a saved log fails again by the printed command's words, and not with a right driver.
again() {
    "$programs/compare" short "$seed" "$work/saved" "$programs/stand-in" "$1" >"$work/out"
    local words
    read -ra words < <(sed -n 's/^ *again: tests\/compare.sh rerun //p' "$work/out")
    "$programs/compare" rerun "${words[@]}" "$programs/stand-in" "$1" >"$work/out" 2>&1
    same "compare: a saved log that shows $1 fails again" 1 $?
    "$programs/compare" rerun "${words[@]}" "$programs/stand-in" none >"$work/out" 2>&1
    same "compare: a saved log that shows $1 passes with a right driver" 0 $?
    "$programs/rvz-check" from-text <"${words[1]%.log}.txt" | cmp -s - "${words[1]}"
    same "compare: a saved log that shows $1 has its text beside it" 0 $?
}

# The driver itself: a library that touches a byte which it may not is seen.
fences() {
    local wrong
    ulimit -c 0
    for wrong in {reads,writes}-{before,behind}-output reads-{before,behind}-log writes-log writes-output \
        judge-reads-{before,behind}-{log,transcript} judge-writes-{log,transcript}; do
        beside fenced "$wrong" "${runner[@]}" "$drivers/wrong"
    done
    WRONG=not beside gives 'compare: the same with nothing touched is let pass' '0 0 0' short "${runner[@]}" "$drivers/wrong"
}

# fenced WRONG DRIVER..: the driver that does this gives no answer, or a wrong one.
fenced() {
    same "compare: a library that $1 is seen" '1 1' "$(WRONG=$1 verdict "${mode}short" "${@:2}" | cut -d' ' -f1,2)"
}

# rates DRIVER..: the rate calls, all of PWM and many of SPI, and that one wrong answer among them is seen.
rates() {
    "$programs/compare-rates" "$seed" "$@" || failed=1
    "$programs/compare-rates" "$seed" bash -c '"$@" | sed "39000s/$/0/"' - "$@" >"$work/out" 2>&1
    same 'compare: one wrong answer to a rate request is seen' "1 1" "$? $(grep -c ': wanted ' "$work/out")"
}

# every SECONDS: each call by chance for a seventh of them, the rates by one seed after the other; up to the first difference.
every() {
    local share=$(($1 / 7)) call end one=$seed
    must 'compare: the answering program builds' build_answers
    for call in '' dump- write- shrink- sign- stream-; do
        "$programs/compare" "${call}seconds" "$share" "$seed" target/failed "${runner[@]}" "$drivers/plain" || return
    done
    end=$(($(date +%s) + share))
    while [ "$(date +%s)" -lt "$end" ]; do
        "$programs/compare-rates" "$one" "${runner[@]}" "$work/answers" || return
        one=$((one + 1))
    done
}

# counts: of what `every` has told, how much was compared.
counts() {
    awk '/^ok compare: .* logs,/ { for (i = 2; i <= NF; i++) { if ($i == "logs,") logs += $(i - 1); if ($i == "applied,") applied += $(i - 2) } }
        /^ok compare: [0-9]+ rate requests/ { rates += $3 }
        END { printf "compared: %d logs, transcripts, texts, runs to write and streams, %d records applied, %d rate requests\n", logs, applied, rates }'
}

build_answers() {
    $cc -std=c99 -O2 -Wall -Wextra -Werror -Iinclude -o "$work/answers" check/rates/answers.c target/staticlib/librivandoze.a
}

# seen_by TOOL REPORT WRONGS DRIVER..: the tool ends a driver that does one of these, and says what it was.
seen_by() {
    local wrong
    for wrong in $3; do
        beside seen "$1" "$2" "$wrong" "${@:4}"
    done
}

seen() {
    same "compare: a library that $3 is seen by $1" '1 1 1 1' "$(WRONG=$3 verdict "${mode}few" "${@:4}") $(grep -c "$2" "$work/out")"
}

# watch_drivers: for the tools that watch memory. The sanitizers watch what is compiled from C; valgrind watches the library too.
watch_drivers() {
    need_system64
    must 'compare: the drivers can be watched' make_system64 "$drivers"/{plain,wrong,address,wrong-address}
    valgrind=("${system[@]}" valgrind --quiet --error-exitcode=9 --exit-on-first-error=yes --leak-check=full)
    # Leaks are left to valgrind.
    export ASAN_OPTIONS=detect_leaks=0:color=never
}

watched() {
    watch_drivers
    local sanitized=("${system[@]}" "$drivers/wrong-address")
    beside against 'compare under UndefinedBehaviorSanitizer' short "${runner[@]}" "$drivers/undefined"
    seen_by UndefinedBehaviorSanitizer 'signed integer overflow' passes-INT_MAX "${sanitized[@]}"
    beside against 'compare under AddressSanitizer' alone "${system[@]}" "$drivers/address"
    seen_by AddressSanitizer 'READ of size 1' "$(echo reads-{before,behind}-{log,output} judge-reads-{before,behind}-transcript)" \
        "${sanitized[@]}"
    seen_by AddressSanitizer 'WRITE of size 1' "$(echo writes-{before,behind}-output)" "${sanitized[@]}"
    beside against 'compare under valgrind' few "${valgrind[@]}" "$drivers/plain"
    seen_by valgrind 'Invalid read of size 1' 'reads-behind-log reads-before-output judge-reads-behind-transcript' "${valgrind[@]}" "$drivers/wrong"
    seen_by valgrind 'Invalid write of size 1' writes-behind-output "${valgrind[@]}" "$drivers/wrong"
    seen_by valgrind 'depends on uninitialised value' uses-unset-memory "${valgrind[@]}" "$drivers/wrong"
}

# mistaken NAME STAND-IN MISTAKES: a right driver is let pass, and so many mistakes are seen.
mistaken() {
    local mistake mistakes
    beside gives "$1: a driver without a mistake is let pass" '0 0 0' "$1-short" "$programs/$2" none
    mapfile -t mistakes < <("$programs/$2" list "$1")
    same "$1: there are mistakes to make" "$3" ${#mistakes[@]}
    for mistake in "${mistakes[@]}"; do
        beside gives "$1: a driver with the mistake $mistake is seen" '1 1 0' "$1-short" "$programs/$2" "$mistake"
    done
}

# compared NAME WRONG..: other calls against the second program, under the tools that watch memory too; each of these of a wrong library is
# seen. What the tools see at all is told by tests/compare.sh.
compared() {
    mode=$1-
    beside against "$1" "$1-full" "${runner[@]}" "$drivers/plain"
    ulimit -c 0
    local wrong
    for wrong in "${@:2}"; do
        beside fenced "$wrong" "${runner[@]}" "$drivers/wrong"
    done
    watch_drivers
    beside against "$1 under AddressSanitizer" "$1-few" "${system[@]}" "$drivers/address"
    beside against "$1 under valgrind" "$1-few" "${valgrind[@]}" "$drivers/plain"
}

case ${1:-} in
'')
    build
    beside against compare full "${runner[@]}" "$drivers/plain"
    must 'compare: the answering program builds' build_answers
    beside rates "${runner[@]}" "$work/answers"
    fences
    watched
    told
    ;;
mistakes)
    must 'compare: the second program builds' second_builds
    test_of_the_comparison
    mistaken dump dump-stand-in 81
    mistaken write call-stand-in 58
    mistaken shrink call-stand-in 46
    mistaken sign call-stand-in 52
    mistaken stream call-stand-in 58
    mistaken far call-stand-in 16
    told
    ;;
dump)
    build
    compared dump dump{,-read}-{{reads,writes}-{before,behind}-output,reads-{before,behind}-input,writes-input}
    seen_by AddressSanitizer 'WRITE of size 1' dump-read-writes-behind-output "${system[@]}" "$drivers/wrong-address"
    told
    ;;
write | shrink | sign)
    build
    compared "$1" "$1"-{{reads,writes}-{before,behind}-output,reads-{before,behind}-input,writes-input}
    [ "$1" != write ] || for wrong in write-notes-{reads-{before,behind}-input,writes-input}; do
        beside fenced "$wrong" "${runner[@]}" "$drivers/wrong"
    done
    told
    ;;
stream)
    build
    beside against stream far-full "${runner[@]}" "$drivers/plain"
    # Where x86-64 is emulated this would take minutes.
    [ "$(uname -m)" != x86_64 ] || beside against stream counted-full "$drivers/plain"
    compared stream stream-writes-{behind-output,input,behind-state} stream-spoils-state-{on-6,on-19,behind-a-refusal,at-the-end,when-counted}
    told
    ;;
seconds | dump-seconds | write-seconds | shrink-seconds | sign-seconds | stream-seconds)
    build
    "$programs/compare" "$1" "${2:?a number of seconds}" "$seed" target/failed "${runner[@]}" "$drivers/plain" || failed=1
    ;;
every-seconds)
    build
    every "${2:?a number of seconds}" | tee "$work/every"
    [ "${PIPESTATUS[0]}" -eq 0 ] || failed=1
    counts <"$work/every"
    ;;
rerun)
    build
    "$programs/compare" "$@" "${runner[@]}" "$drivers/plain" || failed=1
    ;;
*)
    sed -n '2,/^set/s/^# \{0,1\}//p' "$0"
    exit 2
    ;;
esac
exit $failed
