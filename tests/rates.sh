#!/usr/bin/env bash
# The rates, from outside: the library for C against a second finder that tries every pair, the header in C and C++, and the program on
# right and wrong arguments. SEED chooses the random requests.
set -u
cd "$(dirname "$0")/.." || exit 2
. check/tools.sh
work=$(mktemp -d)
trap 'rm -rf "$work"' EXIT
seed=${SEED:-$(date +%s)}

build() {
    must 'rates: the library and the program build' rt_builds
    must 'rates: the second finder builds' rustc -O --edition 2021 -o "$work/rates" check/rates/main.rs
    must 'rates: the header is C99' $cc -std=c99 -O -Wall -Wextra -Wpedantic -Werror -Iinclude \
        -o "$work/header" check/rates/header.c target/staticlib/librivandoze.a
    must 'rates: the header is C++' g++ -Wall -Wextra -Wpedantic -Werror -fsyntax-only -Iinclude -x c++ check/rates/header.c
    must 'rates: the answering program builds' $cc -std=c99 -O -Wall -Wextra -Werror -Iinclude \
        -o "$work/answers" check/rates/answers.c target/staticlib/librivandoze.a
}

# Every answer of the library against the second finder's; then against finders with a mistake, which have to be told apart.
compare() {
    echo "seed $seed"
    "$work/rates" ask "$seed" >"$work/requests"
    run64 "$work/answers" <"$work/requests" >"$work/given"
    local rates=$work/rates asked=("$work/requests" "$work/given") mistake
    beside must 'rates: no rate in range is midway between two periods' "$rates" midway
    beside must "rates: $(wc -l <"$work/requests") requests answered as by trying every pair" "$rates" compare "${asked[@]}"
    for mistake in rounds-period larger-divider strict-tolerance four-dividers cut-to-64-bits whole-hertz period-left-out spi-period-halved; do
        beside seen $mistake "$rates" wrong $mistake "${asked[@]}"
    done
    told
}

# seen MISTAKE COMMAND..: the comparison sees it.
seen() {
    "${@:2}" >"$work/out" 2>&1
    same "rates: the comparison sees a finder of the kind $1" 1 $?
}

header() {
    same 'rates: the accessors of the header' "$(printf '0 1 5 12\n14 0 0 0\n0 40000000/12\n1 1\n0 4 1\n17 0 0\n1 1')" "$(run64 "$work/header")"
}

# says WANTED ARGUMENT..: one test of the program.
says() {
    local wanted=$1
    shift
    same "rates: rvz $*" "$wanted" "$(run64 target/bin/rvz "$@" </dev/null)"
}

program() {
    says 'choice 1 x 39999 period 40000' pwm 1000000 0
    says 'choice 5 x 62499 period 1000000' pwm 40000 0
    says 'choice 1 x 999 period 1000' pwm 40000000 0
    says 'choice 5 x 62304 period 996880' pwm 40125 100
    says 'refused 14' pwm 40125 0
    says 'refused 12' pwm 39999 0
    says 'refused 12' pwm 40000001 0
    says 'refused 12' pwm 610 4
    says 'refused 14' pwm 610000 3
    says 'choice 2 x 32786 period 65574' pwm 610000 4
    says 'refused 13' pwm 610000 1000001
    says 'choice 1 x 4 period 10' spi 4000000000 0
    says 'refused 12' spi 4000000001 0
    says 'choice 4 x 62499 period 1000000' spi 40000 0
    says 'refused 14' spi 3650000000 86757
    says 'choice 1 x 5 period 12' spi 3650000000 86758
    says 'refused 12' pwm 39000 0
    says 'refused 12' pwm 40001000 0
    says 'refused 14' pwm 40125 4
    says 'choice 5 x 62304 period 996880' pwm 40125 5
    says 'refused 12' spi 18446744073709551615 18446744073709551615
    says '40000000 40000' pwm-rate 1 39999
    says '40000000 8388608' spi-rate 7 65535
    says 'refused 15' pwm-rate 0 0
    says 'refused 15' spi-rate 8 0
    says 'refused 15' spi-rate 1 65536
    says 'choice 1 x 39999 period 40000' pwm 001000000 0

    local bad='is no decimal number from 0 to 18446744073709551615'
    says "RATE $bad" pwm 18446744073709551616 0
    says "RATE $bad" pwm '' 0
    says "RATE $bad" spi +40 0
    says "RATE $bad" spi -40 0
    says "RATE $bad" spi 4e3 0
    says "TOL $bad" pwm 1000 '0 '
    says "TOL $bad" spi 1000 99999999999999999999
    says "CHOICE $bad" pwm-rate one 0
    says "X $bad" spi-rate 1 0x10
    same 'rates: rvz pwm and a number of 5,000 digits' "RATE $bad" "$(run64 target/bin/rvz pwm "$(printf '%05000d' 40)" 0)"

    local usage
    usage=$(run64 target/bin/rvz help </dev/null)
    same 'rates: the usage names each rate question' 'pwm pwm-rate spi spi-rate' \
        "$(sed -n 's/^ *rvz \([a-z-]*\) .*/\1/p' <<<"$usage" | grep -E '^(pwm|spi)' | sort | xargs)"
    says "$usage" pwm
    says "$usage" pwm 1000
    says "$usage" pwm 1000 0 0
    says "$usage" PWM 1000 0
    says "$usage" '' 1000 0
    says "$usage" pwm-rates 1 0
    says "$usage" --help
}

build
compare
header
program
exit $failed
