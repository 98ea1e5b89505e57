# For the scripts of tests/, which source it: what is compiled by Rattle is for x86-64, on any machine.
# alone COMMAND..: the scripts run beside each other, and no other one does what is done by this meanwhile.
alone() {
    mkdir -p target
    (flock 9 && "$@") 9>>target/alone
}

apt_install() { apt-get update -qq >&2 && apt-get install -y -qq "$@" >/dev/null 2>&1; }

# need COMMAND PACKAGE OPTION..: installs the Debian package where the command is missing.
need() {
    command -v "$1" >/dev/null && return
    alone apt_install "${@:2}"
    command -v "$1" >/dev/null && return
    echo "FAIL $0: $1 is missing, and $2 cannot be installed"
    exit 1
}

need gcc gcc
need g++ g++
need rustc rustc
# cc compiles for x86-64, and runner holds the words that such a program is started by.
if [ "$(uname -m)" = x86_64 ]; then
    cc=gcc
    runner=()
else
    need x86_64-linux-gnu-gcc gcc-x86-64-linux-gnu
    need qemu-x86_64 qemu-user
    cc=x86_64-linux-gnu-gcc
    lib64=$(dirname "$($cc -print-file-name=libc.so.6)")
    runner=(qemu-x86_64 "$lib64/ld-linux-x86-64.so.2" --library-path "$lib64")
fi

run64() { "${runner[@]}" "$@"; }

# rust64 compiles Rust for x86-64. Elsewhere it is Debian's compiler, which has a standard library for that.
need_rust64() {
    [ "$(uname -m)" = x86_64 ] && return
    [ -x /usr/bin/rustc ] && dpkg -s libstd-rust-dev:amd64 >/dev/null 2>&1 && return
    dpkg --add-architecture amd64
    alone apt_install rustc libstd-rust-dev:amd64
    dpkg -s libstd-rust-dev:amd64 >/dev/null 2>&1 && return
    echo "FAIL $0: libstd-rust-dev:amd64 cannot be installed"
    exit 1
}

rust64() {
    if [ "$(uname -m)" = x86_64 ]; then
        rustc -C opt-level=3 -C codegen-units=1 --edition 2021 "$@"
    else
        /usr/bin/rustc --target x86_64-unknown-linux-gnu -C "linker=$cc" -C opt-level=3 -C codegen-units=1 --edition 2021 "$@"
    fi
}

# must NAME COMMAND..: one test, of the command's status, which ends the script where it fails. What the command says goes to $work.
must() {
    local name=$1
    shift
    if "$@" >"$work/out" 2>&1; then
        echo "ok $name"
    else
        echo "FAIL $name"
        tail -n 20 "$work/out" | sed 's/^/    /'
        exit 1
    fi
}

# What rt reads of the crates.
sources() { find crates crates.txt \( -name out -o -name must-fail \) -prune -o -type f "$@" -print; }

# The library for C and the program, unless both are newer than every source. rt leaves what it makes in the crates' own out/; the program that `rt ci` has run
# is taken as it stands, and else rt builds it and runs it once.
rt_builds() { alone build_by_rt; }

build_by_rt() {
    local library=target/staticlib/librivandoze.a program=target/bin/rvz made=crates/rvz/out/rvz
    if [ -e "$library" ] && [ -e "$program" ] && [ -z "$(sources \( -newer "$library" -o -newer "$program" \) | head -n 1)" ]; then
        return
    fi
    mkdir -p target/staticlib target/bin
    if [ ! -e "$made" ] || [ -n "$(sources -newer "$made" | head -n 1)" ]; then
        (cd crates/rvz && rt run -- version) || return
    fi
    (cd crates/rivandoze && rt lib) && cp crates/rivandoze/out/librivandoze.a "$library" && cp "$made" "$program"
}

# The second program, with all that compares by it.
second_builds() {
    alone cargo build --release --offline --manifest-path check/Cargo.toml --target-dir target/check
}

# What a program is linked with so that the library touches what it may not, as WRONG says.
wrapped=(-Wl,--wrap=rvz_{replay,judge,dump,dump_read,write,shrink,sign,stream_{chunk,end,applied}} check/compare/wrong.c)

# beside COMMAND..: tests in a process of their own, with a folder of their own, as many at a time as there are processors.
started=0
beside() {
    [ "$(jobs -rp | wc -l)" -lt "$(nproc)" ] || wait -n
    started=$((started + 1))
    local own=$work/beside/$started
    mkdir -p "$own"
    (
        work=$own
        "$@" >"$own.said" 2>&1
        [ $failed -ne 0 ] || : >"$own.good"
    ) &
}

# told: waits for all of these, and gives what each has said, in the order in which they were started.
told() {
    local one
    wait
    for ((one = 1; one <= started; one++)); do
        cat "$work/beside/$one.said"
        [ -e "$work/beside/$one.good" ] || failed=1
    done
    rm -rf "$work/beside"
    started=0
}

# How many hundredths of the cases by chance are tried: CASES=1000 for ten times as many.
export CASES=${CASES:-100}
cases() { echo $((($1 * CASES + 99) / 100)); }

# same NAME WANTED GOT: one test.
same() {
    if [ "$2" = "$3" ]; then
        echo "ok $1"
    else
        echo "FAIL $1"
        printf '    wanted: %s\n    got:    %s\n' "$2" "$3"
        failed=1
    fi
}
failed=0
