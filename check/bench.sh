#!/usr/bin/env bash
# The benchmark: what a record of full logs, by each of the calls, and a request of the finder, takes by the library and by the second program;
# and how many times the instructions of its replay of the same log the library takes where a call does more with it than to replay it.
#   check/bench.sh [ROUNDS]   how often each is timed; the best counts
# Instructions are those of x86-64 on any machine, and the same each time. See check/README.md.
set -u
cd "$(dirname "$0")/.." || exit 2
. check/tools.sh
. check/system64.sh
work=$(mktemp -d)
trap 'rm -rf "$work"' EXIT
rounds=${1:-400}
need_rust64
need_system64

# Callgrind needs the names of the functions, and takes long over what else there is to know of them.
build() {
    rt_builds &&
        rust64 --crate-type rlib --crate-name rivandoze_check --out-dir "$work" check/src/lib.rs &&
        rust64 --crate-name bench -C strip=debuginfo -o "$work/bench" --extern rivandoze_check="$work/librivandoze_check.rlib" \
            -L target/staticlib -l static=rivandoze check/bench/main.rs &&
        run64 "$work/bench" logs "$work/logs" &&
        make_system64 "$work/bench" "$work/logs"
}

take_times() { run64 "$work/bench" times "$work/logs" "$rounds" >"$work/times"; }

# An emulated system lets nothing out behind the end of its input, so this input has none.
count() { mkfifo "$work/input" && "${system[@]}" "$work/bench" counts "$work/logs" <>"$work/input" >"$work/counts"; }

table() {
    printf '%-32s %18s %26s\n' '' nanoseconds instructions
    printf '%-32s %9s %8s %7s %10s %8s %7s %9s\n' '' library second ratio library second ratio replays
    paste -d'|' "$work/times" "$work/counts" | awk -F'|' '
        NF % 2 || $1 != $(NF / 2 + 1) { exit 1 }
        {
            at = NF / 2 + 1
            printf "%-32s %9.1f %8.1f %7.2f %10.1f %8.1f %7.2f", $1, $2, $3, $2 / $3, $(at + 1), $(at + 2), $(at + 1) / $(at + 2)
            printf at == 5 ? sprintf(" %9.2f\n", $(at + 1) / $(at + 3)) : "\n"
        }'
}

for step in build take_times count; do
    if ! $step >"$work/out" 2>&1; then
        cat "$work/out"
        exit 1
    fi
done
if [ "$(uname -m)" != x86_64 ]; then
    echo "The times are an emulated processor's and mean little; the instructions are as many as on a real one."
fi
table
