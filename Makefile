# The C side of the gateway: the archive, the example host, installation. 'make help' says what there is.
# Everything else is proved and built by rt itself (README.md).

PREFIX = /usr/local
DESTDIR =
CFLAGS = -O2
ARCHIVE = crates/egp/out/libegp.a

version := $(shell sed -n 's/^\#define EGP_VERSION "\(.*\)"/\1/p' include/egp.h)
# egp.pc names the prefix, so it must hold from any directory
prefix = $(if $(filter /%,$(PREFIX)),$(PREFIX),$(CURDIR)/$(PREFIX))
root = $(DESTDIR)$(prefix)
strict = -Wall -Wextra -Werror -pedantic
example = examples/host.c
out = target/c

.PHONY: archive host check install uninstall help

# rt knows what has changed, so it is always asked here; the targets below ask only where there is no archive.
archive:
	@command -v rt >/dev/null || \
	    { echo "make: there is no rt to prove and build $(ARCHIVE) with; README.md has what a machine needs" >&2; exit 1; }
	cd crates/egp && rt lib
	@mkdir -p target

$(ARCHIVE):
	$(MAKE) archive

$(out)/host: $(example) include/egp.h $(ARCHIVE)
	@mkdir -p $(out)
	$(CC) -std=c99 $(strict) $(CFLAGS) -Iinclude $(example) $(ARCHIVE) -o $@

host: $(out)/host
	$(out)/host $(out)/host.state

# Each compiler that there is takes the example without a warning, and it prints what it must.
check: $(ARCHIVE)
	@mkdir -p $(out)
	@tried=; \
	for compiler in "gcc -std=c99" "clang -std=c99" "g++ -std=c++11 -x c++" "clang++ -std=c++11 -x c++"; do \
	    command -v $${compiler%% *} >/dev/null || continue; \
	    $$compiler $(strict) $(CFLAGS) -Iinclude $(example) -x none $(ARCHIVE) -o $(out)/check && \
	    $(out)/check $(out)/check.state >$(out)/check.out && \
	    diff -u examples/host.out $(out)/check.out || { echo "make: $(example) fails with $$compiler" >&2; exit 1; }; \
	    tried="$$tried $${compiler%% *}"; \
	done; \
	[ -n "$$tried" ] || { echo "make: there is no compiler to check with" >&2; exit 1; }; \
	echo "$(example) does as $(basename $(example)).out says:$$tried"

install: $(ARCHIVE)
	mkdir -p "$(root)/include" "$(root)/lib/pkgconfig"
	install -m 644 include/egp.h "$(root)/include/egp.h"
	install -m 644 $(ARCHIVE) "$(root)/lib/libegp.a"
	sed -e 's|@PREFIX@|$(prefix)|' -e 's|@VERSION@|$(version)|' egp.pc.in >"$(root)/lib/pkgconfig/egp.pc"

uninstall:
	rm -f "$(root)/include/egp.h" "$(root)/lib/libegp.a" "$(root)/lib/pkgconfig/egp.pc"

help:
	@echo "make                      proves what changed and builds $(ARCHIVE); from nothing it takes long"
	@echo "make host                 builds and runs $(example)"
	@echo "make check                the same by each of gcc, clang, g++ and clang++, held to examples/host.out"
	@echo "make install PREFIX=DIR   DIR/include/egp.h, DIR/lib/libegp.a, DIR/lib/pkgconfig/egp.pc; else /usr/local"
	@echo "make uninstall PREFIX=DIR removes these three; both put DESTDIR, where it is set, before PREFIX"
	@echo "host, check and install build the archive only where there is none: after a change of the crates, make first."
	@echo "This is version $(version)."
