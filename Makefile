# make            the library for C, as an archive and shared, and the program; needs rt, the Rattle kit's command
# make install    with the header, the manual page and a pkg-config file, under PREFIX (and DESTDIR, for packages)
# make check      the gate
PREFIX = /usr/local
DESTDIR =
# the version stands in the program alone
VERSION := $(shell sed -n 's/.*b"rvz \([0-9.]*\)\\n".*/\1/p' crates/rvz/src/main.rt)
# the code is x86-64
CC64 = $(if $(filter x86_64,$(shell uname -m)),cc,x86_64-linux-gnu-gcc)

library = target/staticlib/librivandoze.a
soname = librivandoze.so.$(firstword $(subst ., ,$(VERSION)))
shared = target/staticlib/$(soname)
program = target/bin/rvz
sources = crates.txt $(shell find crates \( -name out -o -name must-fail \) -prune -o -type f -print)
root = $(DESTDIR)$(PREFIX)

all: $(library) $(shared) $(program)

$(library): $(sources)
	cd crates/rivandoze && rt lib
	install -D -m 644 crates/rivandoze/out/librivandoze.a $@

$(shared): $(library)
	$(CC64) -shared -Wl,-soname,$(soname) -Wl,--whole-archive $(library) -Wl,--no-whole-archive -o $@

$(program): $(sources)
	cd crates/rvz && rt run -- version
	install -D -m 755 crates/rvz/out/rvz $@

install: all
	install -d "$(root)/include" "$(root)/lib/pkgconfig" "$(root)/bin" "$(root)/share/man/man1"
	install -m 644 include/rivandoze.h "$(root)/include/rivandoze.h"
	install -m 644 $(library) "$(root)/lib/librivandoze.a"
	install -m 755 $(shared) "$(root)/lib/$(soname)"
	ln -sf $(soname) "$(root)/lib/librivandoze.so"
	install -m 644 docs/rvz.1 "$(root)/share/man/man1/rvz.1"
	sed -e 's|@PREFIX@|$(PREFIX)|' -e 's|@VERSION@|$(VERSION)|' rivandoze.pc.in >"$(root)/lib/pkgconfig/rivandoze.pc"
	chmod 644 "$(root)/lib/pkgconfig/rivandoze.pc"
	install -m 755 $(program) "$(root)/bin/rvz"

uninstall:
	rm -f "$(root)/include/rivandoze.h" "$(root)/lib/librivandoze.a" "$(root)/lib/$(soname)" "$(root)/lib/librivandoze.so"
	rm -f "$(root)/lib/pkgconfig/rivandoze.pc" "$(root)/bin/rvz" "$(root)/share/man/man1/rvz.1"

check:
	.ci/run

.PHONY: all install uninstall check
