# Builds what programs and people at the bench use, and puts it in place.
#
#   make                            proves and builds the static library, the shared library and the
#                                   sheet program
#   make shared                     the shared library alone, target/lib/libcircle_median.so, which
#                                   Python needs
#   make install PREFIX=/usr/local  puts in place, below PREFIX: the header, both libraries,
#                                   circle_median.pc for pkg-config, the Python module, and the
#                                   programs bench_sheet, bench_record and bench_picture; DESTDIR
#                                   goes before PREFIX, for packages
#   make uninstall PREFIX=..        takes it away again
#   make test                       bindings/test

PREFIX = /usr/local
DESTDIR =

to = $(DESTDIR)$(PREFIX)
share = share/circle_median
version = $(shell sed -n 's/^version = "\(.*\)"/\1/p' bindings/rust/Cargo.toml)

ifneq ($(filter install uninstall,$(MAKECMDGOALS)),)
ifeq ($(filter /%,$(PREFIX)),)
$(error PREFIX has to begin with a /)
endif
endif

all:
	@tools/build library shared sheet

shared:
	@tools/build shared

install: all
	install -D -m 644 -t '$(to)/include' include/circle_median.h
	install -D -m 644 -t '$(to)/lib' crates/circle_median/out/libcircle_median.a
	install -D -m 755 -t '$(to)/lib' target/lib/libcircle_median.so.0
	ln -sf libcircle_median.so.0 '$(to)/lib/libcircle_median.so'
	install -D -m 755 -t '$(to)/bin' crates/bench_sheet/out/bench_sheet
	install -D -m 644 -t '$(to)/$(share)' bindings/python/circle_median.py
	install -D -m 644 -t '$(to)/$(share)/apps' apps/*.py apps/page.css
	install -d '$(to)/lib/pkgconfig'
	sed -e 's|@PREFIX@|$(PREFIX)|' -e 's|@VERSION@|$(version)|' bindings/circle_median.pc.in >'$(to)/lib/pkgconfig/circle_median.pc'
	for name in record picture; do \
	    sed -e "s|@NAME@|$$name|" apps/installed.in >'$(to)/bin'/bench_$$name && chmod 755 '$(to)/bin'/bench_$$name || exit 1; \
	done

uninstall:
	rm -f '$(to)/include/circle_median.h' '$(to)'/lib/libcircle_median.* '$(to)/lib/pkgconfig/circle_median.pc'
	rm -f '$(to)'/bin/bench_sheet '$(to)'/bin/bench_record '$(to)'/bin/bench_picture
	rm -rf '$(to)/$(share)'

test:
	bindings/test

.PHONY: all shared install uninstall test
