# Installs the prebuilt library and programs, with the header and what pkg-config and CMake read. It compiles nothing: neither the
# toolchain nor a compiler is needed.
#
#     make install PREFIX=/usr/local [DESTDIR=..]
#     make uninstall PREFIX=/usr/local [DESTDIR=..]
#     make package                       a crate for `cargo publish`, with the library in it
TARGET     ?= x86_64-unknown-linux-gnu
PREFIX     ?= /usr/local
LIBDIR     ?= $(PREFIX)/lib
INCLUDEDIR ?= $(PREFIX)/include
BINDIR     ?= $(PREFIX)/bin
INSTALL    ?= install
CARGO      ?= cargo

VERSION := $(shell sed -n 's/^version = "\(.*\)"$$/\1/p' rust/quic-recovery/Cargo.toml)
SONAME  := libquic_recovery.so.$(basename $(VERSION))
FROM    := prebuilt/$(TARGET)
CRATE   := rust/quic-recovery
PROGRAMS = recovery-replay recovery-trace recovery-sender recovery-link recovery-pictures

# recipes read these from the environment, since a path may have spaces and quotes
export PREFIX LIBDIR INCLUDEDIR VERSION SONAME FROM
export LIBRARY  = $(DESTDIR)$(LIBDIR)
export HEADERS  = $(DESTDIR)$(INCLUDEDIR)
export BIN      = $(DESTDIR)$(BINDIR)
export CONFIG   = $(LIBRARY)/cmake/quic-recovery

.PHONY: all verify install uninstall package
all: verify

# each prebuilt file is a listed one, and the library was built from the sources here
verify:
	@test -r "$$FROM/SHA256SUMS" || { echo "make: there is no $$FROM: ./dist writes it, and needs the toolchain" >&2; exit 1; }
	@cd "$$FROM" && sha256sum --quiet --strict -c SHA256SUMS || { echo "make: a file of $$FROM is not the one that SHA256SUMS lists" >&2; exit 1; }
	@cd "$$FROM" && ! find . ! -type d ! -path ./SHA256SUMS -printf '%P\n' | grep -vxF "$$(sed 's/^[0-9a-f]*  //' SHA256SUMS)" >&2 || \
		{ echo "make: SHA256SUMS lists no such file of $$FROM" >&2; exit 1; }
	@bash -c '. ./launch && prebuilt "$$@" >/dev/null' make $(TARGET) recovery_ffi libquic_recovery.a

install: verify
	$(INSTALL) -d "$$LIBRARY/pkgconfig" "$$CONFIG" "$$HEADERS" "$$BIN"
	$(INSTALL) -m 644 rust/c/recovery_ffi.h "$$HEADERS/"
	$(INSTALL) -m 644 "$$FROM/libquic_recovery.a" "$$LIBRARY/"
	$(INSTALL) -m 755 "$$FROM/libquic_recovery.so.$$VERSION" "$$LIBRARY/"
	ln -sf "libquic_recovery.so.$$VERSION" "$$LIBRARY/$$SONAME"
	ln -sf "$$SONAME" "$$LIBRARY/libquic_recovery.so"
	packaging/fill quic-recovery.pc > "$$LIBRARY/pkgconfig/quic-recovery.pc"
	packaging/fill quic-recovery-static.pc > "$$LIBRARY/pkgconfig/quic-recovery-static.pc"
	packaging/fill quic-recovery-config.cmake > "$$CONFIG/quic-recovery-config.cmake"
	packaging/fill quic-recovery-config-version.cmake > "$$CONFIG/quic-recovery-config-version.cmake"
	chmod 644 "$$LIBRARY"/pkgconfig/quic-recovery*.pc "$$CONFIG"/*.cmake
	for it in $(PROGRAMS); do $(INSTALL) -m 755 "$$FROM/bin/$$it" "$$BIN/" || exit; done

uninstall:
	rm -f "$$HEADERS/recovery_ffi.h" "$$LIBRARY/libquic_recovery.a" "$$LIBRARY/libquic_recovery.so.$$VERSION" "$$LIBRARY/$$SONAME"
	rm -f "$$LIBRARY/libquic_recovery.so" "$$LIBRARY/pkgconfig/quic-recovery.pc" "$$LIBRARY/pkgconfig/quic-recovery-static.pc"
	rm -f "$$CONFIG/quic-recovery-config.cmake" "$$CONFIG/quic-recovery-config-version.cmake"
	for it in $(PROGRAMS); do rm -f "$$BIN/$$it"; done
	-rmdir "$$CONFIG" 2>/dev/null

# cargo takes the files that are copied here, which git ignores, for changes that are not committed: so --allow-dirty
package: verify
	mkdir -p $(CRATE)/native/$(TARGET)
	cp $(FROM)/libquic_recovery.a $(FROM)/PROVED $(CRATE)/native/$(TARGET)/
	cp LICENSE-APACHE LICENSE-MIT NOTICE $(CRATE)/
	cd $(CRATE) && $(CARGO) package --allow-dirty $(CARGOFLAGS)
