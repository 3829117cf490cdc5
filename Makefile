# Builds, from a clone, with a C compiler and Python alone, or with cargo beside them:
#
#     make          the C library, the programs of examples/c, and the daemon where what it wants is here
#     make check    runs the tests that want no toolchain: 'N passed, M failed'
#     make install  as root: the daemon, its unit, its user and the examples of its files, below PREFIX, /usr/local; `make uninstall` takes them away
#     make rust     out/rust, which cargo builds: `make` and cargo write it themselves, this is for an editor that looks before
#     make clean
#
# out/lib has lag.h, liblag.a and liblag.so.0, which Python takes from there; out/bin has the programs. LAG_FOLDER names a folder that has these files of
# the library, as tools/library makes them, proved and native: it is taken then, and so is that of the package liblag-dev, if its lag.h is this one. Else
# cargo builds it of the proved sources, where a cargo is here that Cargo.toml fits and that builds for the processor of CC, and CARGO= is not given; else it is
# that of c/lag.c (docs/ASSURANCE.md). The line of tools/library says which. CC and CFLAGS are those of make.
CC ?= cc
CARGO ?= cargo
CFLAGS ?= -O2
PYTHON ?= python3
PKG_CONFIG ?= pkg-config
HEADER := crates/lagffi/include/lag.h
EXAMPLES := $(filter-out no_libc,$(patsubst examples/c/%.c,%,$(wildcard examples/c/*.c)))
# What the daemon wants besides: the package of each, for Debian.
WANTED := pkg-config clang bpftool libbpf-dev libinih-dev libmnl-dev libcap-ng-dev

packaged := $(shell $(PKG_CONFIG) --variable=libdir lag 2>/dev/null)
packaged_header := $(shell $(PKG_CONFIG) --variable=includedir lag 2>/dev/null)
ifndef LAG_FOLDER
ifneq ($(packaged),)
LAG_FOLDER := $(shell cmp -s $(packaged_header)/lag.h $(HEADER) && echo $(packaged))
endif
endif
ifndef LAG_FOLDER
# The words of the cargo that builds the library; none where c/lag.c is taken.
by_cargo := $(shell CC="$(CC)" CARGO="$(CARGO)" $(PYTHON) -B tools/stock.py 2>/dev/null)
endif
has = $(shell $(PKG_CONFIG) --exists $(1) 2>/dev/null && echo $(1))
daemon := $(if $(filter 6,$(words $(call has,inih) $(call has,libmnl) $(call has,libcap-ng) $(call has,libbpf) $(shell command -v clang) \
	$(shell PATH=$$PATH:/usr/sbin command -v bpftool))),daemon,no-daemon)

all: library examples $(daemon)

library: out/lib/liblag.so.0

ifneq ($(LAG_FOLDER),)
out/lib/liblag.so.0: $(LAG_FOLDER)/liblag.so.0 $(LAG_FOLDER)/liblag.a $(HEADER) out/lib/taken-from
	mkdir -p out/lib
	cp $(HEADER) $(LAG_FOLDER)/liblag.a out/lib/
	cp $(LAG_FOLDER)/liblag.so.0 out/lib/liblag.so.new && mv out/lib/liblag.so.new out/lib/liblag.so
	cp $(LAG_FOLDER)/liblag.so.0 $@.new && mv $@.new $@
else ifneq ($(by_cargo),)
# Cargo looks what has changed; a library that is as it was stays.
out/lib/liblag.so.0: out/lib/taken-from FORCE
	@CC="$(CC)" CARGO="$(CARGO)" $(PYTHON) tools/library --from-rust out/lib
else
out/lib/liblag.so.0: c/lag.c $(HEADER) tools/library tools/library.py out/lib/taken-from
	CC="$(CC)" CFLAGS="$(CFLAGS)" $(PYTHON) tools/library --from-c out/lib
endif

# What the library is of: the folder that it is taken from, or a compiler and its words. Another one makes it anew.
made_of := $(or $(LAG_FOLDER),$(by_cargo),$(CC) $(CFLAGS))
out/lib/taken-from: FORCE
	@mkdir -p out/lib; echo "$(made_of)" | cmp -s - $@ || echo "$(made_of)" > $@

FORCE:

examples: $(addprefix out/bin/,$(EXAMPLES))

out/bin/%: examples/c/%.c $(wildcard examples/c/*.h) out/lib/liblag.so.0 | out/bin
	$(CC) $(CFLAGS) -Iout/lib -o $@ $< out/lib/liblag.a

# The library by -DNIW_POOL is of these programs alone.
out/bin/pool out/bin/large_chip: out/bin/%: examples/c/%.c examples/c/loop.h hosts/shared/lag_end.h out/bin/pool.o
	$(CC) $(CFLAGS) -DNIW_POOL -I$(dir $(HEADER)) -o $@ $< out/bin/pool.o

out/bin/pool.o: c/lag.c $(HEADER) | out/bin
	$(CC) $(CFLAGS) -DNIW_POOL -I$(dir $(HEADER)) -c -o $@ c/lag.c

out/bin:
	mkdir -p $@

daemon: out/lib/liblag.so.0 | out/bin
	PATH=$$PATH:/usr/sbin $(MAKE) -C lagd CC="$(CC)" CRATE=../crates/lagffi LIBRARY=../out/lib/liblag.a RUNTIME=
	cp lagd/out/lagd out/bin/lagd.new && mv out/bin/lagd.new out/bin/lagd

no-daemon:
	@echo "out/bin has no lagd: it wants $(WANTED) (Debian: apt install $(WANTED))"

check: all
	CC="$(CC)" $(PYTHON) tools/maintain/clone-tests

# What the package lagd has; a link that is up stays as it is until its service is started anew. DESTDIR is for who packs.
PREFIX ?= /usr/local
UNIT := $(DESTDIR)$(PREFIX)/lib/systemd/system/lagd@.service
USERS := $(DESTDIR)$(PREFIX)/lib/sysusers.d/lagd.conf

install:
	test -e out/bin/lagd || { echo "out/bin has no lagd: make builds it" >&2; exit 1; }
	install -D -m 755 out/bin/lagd $(DESTDIR)$(PREFIX)/sbin/lagd
	install -D -m 644 lagd/lagd.sysusers $(USERS)
	install -D -m 644 lagd/lagd@.service $(UNIT)
	sed -i 's,/usr/sbin/lagd,$(PREFIX)/sbin/lagd,' $(UNIT)
	install -d $(DESTDIR)/etc/lagd $(DESTDIR)$(PREFIX)/share/doc/lagd/examples
	install -m 644 lagd/carry.conf lagd/boot/* $(DESTDIR)$(PREFIX)/share/doc/lagd/examples
ifeq ($(DESTDIR),)
	! command -v systemd-sysusers >/dev/null || systemd-sysusers $(USERS)
	test ! -d /run/systemd/system || systemctl daemon-reload
endif

# The files in /etc/lagd and the user stay.
uninstall:
	rm -rf $(DESTDIR)$(PREFIX)/sbin/lagd $(UNIT) $(USERS) $(DESTDIR)$(PREFIX)/share/doc/lagd

rust:
	$(CARGO) run --quiet --offline --package eraser

clean:
	rm -rf out/lib out/bin out/rust target lagd/out

.PHONY: FORCE all library rust examples daemon no-daemon check install uninstall clean
