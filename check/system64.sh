# For tests/compare.sh and check/bench.sh, which source it behind tools.sh: x86-64 programs under AddressSanitizer and valgrind. On
# another processor these need a whole system of their own, since neither works under qemu-user. Its parts are Debian's for amd64. They
# are unpacked into target/system64, not installed, and their packages stay with apt's own.
# system holds the words that a program in it is started by.
system=()
parts=target/system64

need_system64() {
    if [ "$(uname -m)" = x86_64 ]; then
        need valgrind valgrind
        return
    fi
    need qemu-system-x86_64 qemu-system-x86 --no-install-recommends
    need cpio cpio
    dpkg --add-architecture amd64
    alone fetch_parts >"$work/out" 2>&1 && return
    echo "FAIL $0: the parts of a system for x86-64 cannot be fetched"
    tail -n 20 "$work/out" | sed 's/^/    /'
    exit 1
}

# Parts that were unpacked before callgrind was among them are unpacked anew.
fetch_parts() {
    [ -e "$parts/kernel" ] && [ -e "$parts/tree/usr/libexec/valgrind/callgrind-amd64-linux" ] && return
    unpack_parts || { apt-get update -qq && unpack_parts; }
}

# kernel64: the package of the kernel at hand, which one without a version names.
kernel64() {
    apt-cache depends linux-image-cloud-amd64:amd64 | sed -n 's/^ *Depends: \(linux-image-[^:]*\).*/\1/p'
}

# The C library's debugging symbols are what valgrind finds the loader's functions by.
unpack_parts() {
    local all=$parts/all tree=$parts/tree package name
    rm -rf "$parts"
    mkdir -p "$all" "$tree/modules" "$tree/usr/bin"
    for package in "$(kernel64)" libc6 libc6-dbg libgcc-s1 valgrind; do
        name=$(apt-get download --print-uris "$package:amd64" | cut -d' ' -f2)
        (cd /var/cache/apt/archives && apt-get download "$package:amd64") && dpkg -x "/var/cache/apt/archives/$name" "$all" || return
    done
    find "$all/lib/modules" -name 'virtio*.ko' -exec cp -t "$tree/modules" {} + &&
        (cd "$all" && cp --parents -t ../tree -r lib64 lib/x86_64-linux-gnu/{ld-linux-x86-64,libc,libm,libgcc_s}.so.? usr/lib/debug \
            usr/libexec/valgrind/{default.supp,{memcheck,callgrind}-amd64-linux,vgpreload_{core,memcheck}-amd64-linux.so}) &&
        cp "$all/usr/bin/valgrind.bin" "$tree/usr/bin/valgrind" &&
        mv "$all"/boot/vmlinuz-* "$parts/kernel" && rm -r "$all"
}

# make_system64 FILE..: a system with the programs, and what else they need, where they are here.
make_system64() {
    [ "$(uname -m)" = x86_64 ] && return
    system=(check/system64/boot "$parts/kernel" "$work/system")
    cp -r "$parts/tree" "$work/tree" && cp -r --parents -t "$work/tree" "$@" &&
        $cc -std=c99 -O2 -Wall -Wextra -Werror -static -o "$work/tree/init" check/system64/init.c &&
        (cd "$work/tree" && find . | cpio --quiet -o -H newc) >"$work/system"
}
