#!/usr/bin/env bash
# The examples as a user meets them: built by gcc and clang, run on every sample log, and built once more against the installed files;
# and what the README shows. SEED chooses the logs of a folder.
set -u
cd "$(dirname "$0")/.." || exit 2
. check/tools.sh
need cargo cargo
need clang clang
need make make
need pkg-config pkg-config
need mandoc mandoc
work=$(mktemp -d)
trap 'rm -rf "$work"' EXIT
seed=${SEED:-$(date +%s)}
second=target/check/release/rvz-check
strict=(-std=c99 -O2 -Wall -Wextra -Wpedantic -Werror)
cxx=(-x c++ -std=c++11 -Wall -Wextra -Wpedantic -Werror -fsyntax-only -Iinclude)
if [ "$(uname -m)" = x86_64 ]; then
    clang=(clang)
else
    clang=(clang --target=x86_64-linux-gnu)
fi

build() {
    must 'examples: the library builds' rt_builds
    must 'examples: the second program builds' second_builds
    local name
    for name in scan verdict archive record folder live; do
        must "examples: $name.c is C99 by gcc" $cc "${strict[@]}" -Iinclude -o "$work/$name" "examples/$name.c" target/staticlib/librivandoze.a
        must "examples: $name.c is C99 by clang" "${clang[@]}" "${strict[@]}" -Iinclude -o "$work/$name-clang" "examples/$name.c" target/staticlib/librivandoze.a
        must "examples: $name.c and the header are C++ by g++" g++ "${cxx[@]}" "examples/$name.c"
    done
    must 'examples: scan.c and the header are C++ by clang' clang++ "${cxx[@]}" examples/scan.c
}

# scans SCAN NAME LOG: what it prints and how it ends against the file beside the log.
scans() {
    local wanted=${3%.log}.out status=0
    [[ $3 != */refused-* ]] || status=1
    same "$2" "$(cat "$wanted") status $status" "$(run64 "$1" "$3") status $?"
}

samples() {
    local log name
    for log in examples/logs/*.log; do
        name=$(basename "$log" .log)
        "$second" from-text <"${log%.log}.txt" | cmp -s - "$log"
        same "examples: $name is what its text says" 0 $?
        scans "$work/scan" "examples: scan, by gcc, of $name" "$log"
        scans "$work/scan-clang" "examples: scan, by clang, of $name" "$log"
        same "examples: the readings of $name are the second program's" "$("$second" <"$log" | grep -v applied)" \
            "$(sed -n 's/^record .* = \([0-9]*\).*/\1/p' "${log%.log}.out")"
    done
}

# settled LOG: the lines of `rvz sign` for its stretches, which end what `verdict` prints.
settled() {
    run64 target/bin/rvz sign <"$1" | grep -v '^applied '
}

# stretches LOG: what `verdict` prints behind its first line; stretches_of FUNCTION: that of made logs, one after the other.
stretches() {
    run64 "$work/verdict" "$1" /dev/null | tail -n +2
}

stretches_of() {
    local i
    for ((i = 1; i <= $(cases 20); i++)); do
        "$second" generate $((seed + i)) 2047 20 5 >"$work/log"
        "$1" "$work/log"
    done
}

# The sample transcripts, each named by its log and its verdict: what `verdict` prints of it against the file beside it, and the program's
# verdict. The right ones have the second program's readings.
transcripts() {
    local transcript name log
    for transcript in examples/transcripts/*.bin; do
        name=$(basename "$transcript" .bin)
        log=examples/logs/${name%-*}.log
        same "examples: verdict of $name" "$(cat "${transcript%.bin}.out"; settled "$log") status 0" "$(run64 "$work/verdict" "$log" "$transcript") status $?"
        same "examples: rvz judge of $name" "${name#*-}" "$(run64 target/bin/rvz judge "$transcript" <"$log" | cut -d ' ' -f 1)"
        [[ $name == *-same || $name == *-both ]] || continue
        same "examples: $name has the second program's readings" "$("$second" <"$log" | grep -v applied | xargs)" \
            "$(od -An -v -t u8 -w8 --endian=little "$transcript" | xargs)"
    done
    same 'examples: verdict of two transcripts' "$(cat examples/transcripts/turns-{same,negated}.out; settled examples/logs/turns.log)" \
        "$(run64 "$work/verdict-clang" examples/logs/turns.log examples/transcripts/turns-{same,negated}.bin)"
    same 'examples: verdict of a transcript of another log' \
        "examples/transcripts/whole-same.bin: refused by 17: it has not 8 bytes for each reading of the log
$(settled examples/logs/turns.log) status 1" \
        "$(run64 "$work/verdict" examples/logs/turns.log examples/transcripts/whole-same.bin) status $?"
    same 'examples: verdict has the words of rvz sign for made logs' "$(stretches_of settled)" "$(stretches_of stretches)"
    same 'examples: verdict by a log that is refused' \
        "examples/transcripts/whole-same.bin: refused by 9, which is the log's own refusal status 1" \
        "$(run64 "$work/verdict" examples/logs/refused-9.log examples/transcripts/whole-same.bin) status $?"
    run64 "$work/verdict" examples/logs/turns.log "$work/none" 2>"$work/out"
    same 'examples: verdict of no file' 2 $?
    run64 "$work/verdict" examples/logs/turns.log 2>"$work/out"
    same 'examples: verdict without a transcript' '2 usage: verdict LOG TRANSCRIPT..' "$? $(cat "$work/out")"
}

# The smaller log of each sample: of `idle` the sample `idle-smaller`, of every other log itself, and of a refused one nothing. The program's
# is the same.
archives() {
    local log name wanted size
    for log in examples/logs/*.log; do
        name=$(basename "$log" .log)
        rm -f "$work/smaller"
        if [[ $name == refused-* ]]; then
            same "examples: archive of $name" "refused $(run64 target/bin/rvz <"$log" | sed -n 's/.*refused //p') status 1 no file" \
                "$(run64 "$work/archive" "$log" "$work/smaller" 2>&1) status $? $([ -e "$work/smaller" ] || echo no file)"
            continue
        fi
        wanted=$log
        [ "$name" != idle ] || wanted=examples/logs/idle-smaller.log
        size=$(wc -c <"$wanted")
        same "examples: archive of $name" "$size of $(wc -c <"$log") bytes, the same readings status 0" \
            "$(run64 "$work/archive" "$log" "$work/smaller") status $?"
        cmp -s "$wanted" "$work/smaller"
        same "examples: the smaller log of $name" 0 $?
        run64 target/bin/rvz shrink <"$log" | cmp -s "$wanted" -
        same "examples: rvz shrink of $name" 0 $?
    done
    same 'examples: archive, by clang, of idle' '280 of 376 bytes, the same readings' \
        "$(run64 "$work/archive-clang" examples/logs/idle.log "$work/smaller")"
    run64 "$work/archive" examples/logs/idle.log 2>"$work/out"
    same 'examples: archive without a file to write' '2 usage: archive LOG SMALLER' "$? $(cat "$work/out")"
}

# What record.c makes, byte for byte against the second program's log of the same text, and what a replay reads in it.
recorded() {
    local record
    for record in "$work/record" "$work/record-clang"; do
        rm -f "$work/made"
        same "examples: $(basename "$record") makes a log" '162 bytes, 8 records status 0' "$(run64 "$record" 3 "$work/made") status $?"
        "$second" from-text <<'TEXT' | cmp -s - "$work/made"
note "one turn, made by record.c"
write select 40960
write encoder 3 cnfg 1
pins encoder 3 0
pins encoder 3 1
pins encoder 3 3
pins encoder 3 2
pins encoder 3 0
read encoder 3 cntr
TEXT
        same "examples: $(basename "$record") makes the second program's bytes" 0 $?
    done
    same 'examples: a replay of what record.c made' $'4\napplied 8 refused 0' "$(run64 target/bin/rvz <"$work/made")"
    rm -f "$work/made"
    same 'examples: record of an encoder whose SELECT is none' 'refused by 8: record 0 status 1' "$(run64 "$work/record" 10 "$work/made") status $?"
    same 'examples: what is refused is not written' no "$([ -e "$work/made" ] && echo yes || echo no)"
    run64 "$work/record" 3x "$work/made" 2>"$work/out"
    same 'examples: record of no number' '2 usage: record ENCODER FILE' "$? $(cat "$work/out")"
}

# A small folder of logs: a line for each is what the second program and the program say of it alone, and the totals are those of the lines, by
# one process and by several at a time.
folders() {
    local log lines totals
    echo "seed $seed"
    must 'examples: a folder of logs' check/many.sh "$work/many" "$(cases 200)" "$seed"
    lines=$(run64 "$work/folder" "$work"/many/*.log)
    same 'examples: folder says of each log what the second program says of it alone' \
        "$(for log in "$work"/many/*.log; do echo "$log $("$second" <"$log" | tail -n 1)"; done)" "$lines"
    same 'examples: and what rvz says' "$(for log in "$work"/many/*.log; do run64 target/bin/rvz <"$log" | tail -n 1; done)" "$(cut -d ' ' -f 2- <<<"$lines")"
    totals=$(awk '{ applied += $3; refused += $5 != 0 } END { print "logs", NR, "applied", applied, "refused", refused }' <<<"$lines")
    same 'examples: folder has the totals of the lines' "$totals status 0" "$(run64 "$work/folder-clang" -t "$work"/many/*.log) status $?"
    same 'examples: several at a time have the same lines' "$lines" \
        "$(find "$work/many" -name '*.log' -print0 | xargs -0 -P 4 -n 7 "${runner[@]}" "$work/folder" | sort)"
    same 'examples: and the same totals' "$totals" "$(find "$work/many" -name '*.log' -print0 | xargs -0 -P 4 -n 7 "${runner[@]}" "$work/folder" -t |
        awk '{ logs += $2; applied += $4; refused += $6 } END { print "logs", logs, "applied", applied, "refused", refused }')"
    same 'examples: some of these logs are refused, and some are not' yes "$(awk '{ exit !(0 < $6 && $6 < $2) }' <<<"$totals" && echo yes)"
    same 'examples: folder of the samples' "$(for log in examples/logs/*.log; do echo "$log $("$second" <"$log" | tail -n 1)"; done)" \
        "$(run64 "$work/folder" examples/logs/*.log)"
    same 'examples: folder of a file that is not there, and of one that is' 'examples/logs/whole.log applied 5 refused 0 status 2' \
        "$(run64 "$work/folder" "$work/none" examples/logs/whole.log 2>"$work/out") status $?"
    run64 "$work/folder" -t 2>"$work/out"
    same 'examples: folder without a file' '2 usage: folder [-t] FILE..' "$? $(cat "$work/out")"
}

# streams LIVE NAME LOG: the log's records through a pipe, in pieces, come to what the program says of the log.
streams() {
    local size distance edition
    size=$(stat -c %s "$3")
    [ "$size" -ge 8 ] || return 0
    distance=$(od -An -t u4 -j $((size - 8)) -N 4 "$3")
    edition=$(od -An -t u2 -j $((size - 4)) -N 2 "$3")
    [ "$distance" -le $((size - 8)) ] || return 0
    same "$2" "$(run64 target/bin/rvz <"$3")" \
        "$(tail -c +$((size - 7 - distance)) "$3" | head -c "$distance" | dd bs=7 status=none | run64 "$1" "$((edition))")"
}

live() {
    local log name
    for log in examples/logs/*.log; do
        name=$(basename "$log" .log)
        [[ $name != refused-[345] ]] || continue
        streams "$work/live" "examples: live, by gcc, of $name" "$log"
        streams "$work/live-clang" "examples: live, by clang, of $name" "$log"
    done
    same 'examples: live, bytes left over' 'applied 0 refused 5 status 1' "$(printf '\1\0' | run64 "$work/live" 1) status $?"
    same 'examples: live, no such edition' 'applied 0 refused 4 status 1' "$(run64 "$work/live" 5 </dev/null) status $?"
    run64 "$work/live" 2>"$work/out" </dev/null
    same 'examples: live without an edition' '2 usage: live EDITION <records' "$? $(cat "$work/out")"
}

# docs/WALK.md: each command in a folder of its own, and what it prints against the lines below it.
walked() {
    local root=$PWD line command='' wanted='' rvz64="${runner[*]} target/bin/rvz"
    mkdir "$work/walk"
    ln -s "$root/target" "$work/walk/target"
    step() {
        [ -z "$command" ] || same "examples: the walk's ${command:0:60}" "$wanted" "$(cd "$work/walk" && bash -c "${command//target\/bin\/rvz/$rvz64}" 2>&1)"
    }
    while IFS= read -r line; do
        case $line in
        '    $ '*)
            step
            command=${line#    $ } wanted=''
            ;;
        '    '*) wanted+=${wanted:+$'\n'}${line#    } ;;
        *)
            step
            command=''
            ;;
        esac
    done < <(cat docs/WALK.md; echo)
}

manual() {
    must 'examples: the manual page is sound' mandoc -T lint -W warning docs/rvz.1
    local command
    for command in judge sign dump shrink write stream pwm spi pwm-rate spi-rate help version; do
        same "examples: the manual page and the usage name $command" '1 1' \
            "$(mandoc -T ascii docs/rvz.1 | col -b | grep -qw -- "$command" && echo 1) $(run64 target/bin/rvz help </dev/null | grep -qw -- "$command" && echo 1)"
    done
}

other_files() {
    head -c 32769 /dev/zero >"$work/long"
    same 'examples: scan of a log that is too long' 'the log is refused by 1: the log is longer than 32,768 bytes' \
        "$(run64 "$work/scan" "$work/long")"
    run64 "$work/scan" "$work/none" 2>"$work/out"
    same 'examples: scan of no file' 2 $?
    run64 "$work/scan" 2>"$work/out"
    same 'examples: scan without a file' "2 usage: scan FILE" "$? $(cat "$work/out")"
}

# By the flags that pkg-config has for the files installed under the prefix, and by no others.
build_installed() {
    local flags
    read -ra flags < <(PKG_CONFIG_PATH=$work/usr/lib/pkgconfig pkg-config --cflags --libs rivandoze)
    $cc "${strict[@]}" -o "$work/installed" examples/scan.c "${flags[@]}"
}

installed() {
    must 'examples: make install' make --no-print-directory install PREFIX="$work/usr"
    same 'examples: what is installed' \
        'bin/rvz include/rivandoze.h lib/librivandoze.a lib/librivandoze.so.1 lib/pkgconfig/rivandoze.pc share/man/man1/rvz.1' \
        "$(cd "$work/usr" && find . -type f | sed 's|^\./||' | sort | xargs)"
    same 'examples: the version stands in one place' "rvz $(sed -n 's/^Version: //p' "$work/usr/lib/pkgconfig/rivandoze.pc")" \
        "$(run64 "$work/usr/bin/rvz" version </dev/null)"
    same 'examples: the shared library has the calls of the header and no other' \
        "$(grep -o '^uint64_t rvz_[a-z_]*' include/rivandoze.h | cut -d ' ' -f 2 | sort | xargs)" \
        "$(nm -D --defined-only "$work/usr/lib/librivandoze.so.1" | awk '{ print $3 }' | sort | xargs)"
    must 'examples: scan.c builds against the installed files' build_installed
    scans "$work/installed" 'examples: scan, installed, of turns' examples/logs/turns.log
    scans "$work/installed" 'examples: scan, installed, of refused-9' examples/logs/refused-9.log
    same 'examples: the installed program' $'1\napplied 5 refused 0' "$(run64 "$work/usr/bin/rvz" <examples/logs/whole.log)"

    must 'examples: make install for a package' make --no-print-directory install DESTDIR="$work/stage" PREFIX=/usr
    same 'examples: a package has the final prefix' 'prefix=/usr' "$(head -n 1 "$work/stage/usr/lib/pkgconfig/rivandoze.pc")"
    must 'examples: make uninstall' make --no-print-directory uninstall PREFIX="$work/usr"
    same 'examples: what is left' '' "$(find "$work/usr" -type f)"
}

# The README's C program, and each command line with what it says is printed.
readme() {
    local example command shown log
    sed -n '/^```c$/,/^```$/{/^```/d;p}' README.md >"$work/readme.c"
    must 'examples: the C program of the README builds' $cc "${strict[@]}" -Iinclude -o "$work/readme" "$work/readme.c" target/staticlib/librivandoze.a
    same 'examples: the C program of the README' $'first reading 1\napplied 5 refused 0' "$(run64 "$work/readme" <examples/logs/whole.log)"
    while IFS='#' read -r command shown; do
        read -ra example <<<"${command#*rvz}"
        shown=${shown# }
        same "examples: the README's rvz ${example[*]}" "${shown%%:*}" "$(run64 target/bin/rvz "${example[@]}" </dev/null)"
    done < <(grep '^    rvz [a-z]' README.md)
    while IFS='#' read -r command shown; do
        read -r _ _ example shown <<<"${command/</} ${shown}"
        read -r log shown <<<"$shown"
        same "examples: the README's rvz judge $example" "$shown" "$(run64 target/bin/rvz judge "$example" <"$log")"
    done < <(grep '^    target/bin/rvz judge' README.md)
    same 'examples: the logs that the README writes by printf' 'applied 0 refused 5 1 applied 5 refused 0' \
        "$(sed -n 's/^    \(printf .*\) | target\/bin\/rvz.*/\1/p' README.md | while read -r command; do
            bash -c "$command" | run64 target/bin/rvz
        done | xargs)"
}

build
samples
transcripts
archives
recorded
folders
live
walked
manual
other_files
installed
readme
exit $failed
