# make demo     runs lineview on a sample line
# make lib      proves and builds the library for C and Rust: target/lib
# make install  copies library, header and pkg-config file to PREFIX (DESTDIR is put before it)
# make test     proves and tests everything, then runs the programs and the hosts in C and Rust; its last line is the verdict
# make programs proves and builds lineview, console, recordview and unitdump (target/bin), and compares them with independent programs
# make bench    times the receiving engines and the check beside a bit-by-bit Rust program, each call, and lineview (docs/BENCHMARK.md)
.PHONY: demo lib install test tools gate independent programs hosts bench

PREFIX = /usr/local
VERSION = 0.1.0
# each an archive of its own, so that a program with both engines has each as fast as alone
EXPORTS = capi_booking capi_commands capi_slots capi_receive capi_octets capi_output
LIB = target/lib
SHARED = libpenguinjug.so.$(VERSION)
SONAME = libpenguinjug.so.0

CC = cc
CXX = c++
WARNINGS = -O2 -Wall -Wextra -Werror -pedantic
CARGO = cargo --offline --locked --quiet
RUST = --manifest-path rust/Cargo.toml --target-dir target/rust
REFERENCE = --manifest-path tests/reference/Cargo.toml --target-dir target/reference

# proves a program, builds it and copies it to target/bin; rt builds a program only to run it, so it runs on no input, and what it writes is let go
PROGRAM = mkdir -p target/bin && (cd crates/$(1) && rt run < /dev/null > /dev/null) && cp crates/$(1)/out/$(1) target/bin/
# proves a static library, builds it and copies it to target/staticlib
STATICLIB = mkdir -p target/staticlib && (cd crates/$(1) && rt lib) && cp crates/$(1)/out/lib$(1).a target/staticlib/

# says which tool is missing and what for, and fails
NEED = command -v $(1) > /dev/null || { echo "make: $(1) is missing; it is needed for $(2)" >&2; exit 1; }

demo:
	$(call PROGRAM,lineview)
	target/bin/lineview < crates/lineview_sample/stdin | od -An -v -tx1 -w16

# no link lies below the checkout, since rt ci refuses them: the three names of the shared library are one file here, and links where it is installed
lib:
	@$(call NEED,$(CC),the shared library)
	$(foreach crate,$(EXPORTS),$(call STATICLIB,$(crate)) &&) true
	rm -rf $(LIB)
	mkdir -p $(LIB)/objects
	cd $(LIB)/objects && for crate in $(EXPORTS); do ar x ../../staticlib/lib$$crate.a || exit 1; done
	ar rcs $(LIB)/libpenguinjug.a $(LIB)/objects/*.o
	$(CC) -shared -Wl,-soname,$(SONAME) -o $(LIB)/$(SHARED) $(LIB)/objects/*.o
	ln $(LIB)/$(SHARED) $(LIB)/$(SONAME)
	ln $(LIB)/$(SHARED) $(LIB)/libpenguinjug.so

install:
	@test -f $(LIB)/libpenguinjug.a || { echo "make: there is no library yet: run \`make lib\` first" >&2; exit 1; }
	mkdir -p "$(DESTDIR)$(PREFIX)/include" "$(DESTDIR)$(PREFIX)/lib/pkgconfig"
	cp include/penguinjug.h "$(DESTDIR)$(PREFIX)/include/"
	cp $(LIB)/libpenguinjug.a $(LIB)/$(SHARED) "$(DESTDIR)$(PREFIX)/lib/"
	ln -sf $(SHARED) "$(DESTDIR)$(PREFIX)/lib/$(SONAME)"
	ln -sf $(SONAME) "$(DESTDIR)$(PREFIX)/lib/libpenguinjug.so"
	sed -e 's|@PREFIX@|$(PREFIX)|' -e 's|@VERSION@|$(VERSION)|' include/penguinjug.pc.in > "$(DESTDIR)$(PREFIX)/lib/pkgconfig/penguinjug.pc"

test: tools
	$(MAKE) independent
	$(MAKE) gate
	$(MAKE) programs
	$(MAKE) hosts
	@tail -n 1 target/gate.log

tools:
	@$(call NEED,python3,the tests)
	@$(call NEED,$(CC),the tests of the C host)
	@$(call NEED,$(CXX),the test of the header in C++)
	@$(call NEED,cargo,the tests of the Rust host)
	@$(call NEED,pkg-config,the test of the installed library)

# rt ci over the whole repository; what it says is kept in target/gate.log
gate:
	tests/gate.sh

# the line and the records for the check of units, the line and the file of unitdump, the records and the lines of recordview, and README's check by hand, are those of a program that shares nothing with the project
independent:
	@$(call NEED,python3,the tests)
	python3 tests/crc_units.py check
	python3 tests/unitdump.py check
	python3 tests/record_lines.py check
	python3 tests/check_by_hand.py

# the programs, and each against a program that shares nothing with the project, on many inputs
programs:
	@$(call NEED,python3,the tests)
	@$(call NEED,cargo,the reference of the console)
	$(call PROGRAM,lineview)
	$(call PROGRAM,console)
	$(call PROGRAM,recordview)
	$(call PROGRAM,unitdump)
	$(CARGO) test $(REFERENCE)
	$(CARGO) build --release $(REFERENCE)
	for crate in console console_session; do target/reference/release/reference < crates/$$crate/stdin | cmp - crates/$$crate/stdout || exit 1; done
	python3 tests/scripts.py target/bin/console target/reference/release/reference
	python3 tests/record_lines.py run target/bin/recordview
	python3 tests/unitdump.py run target/bin/unitdump

# the header and the Rust crate against the library, the C and the Rust host against each other, the programs that README shows
hosts: tools
	$(MAKE) lib
	$(call STATICLIB,capi_fields)
	mkdir -p target/hosts
	$(CXX) -std=c++98 $(WARNINGS) -Iinclude -fsyntax-only -x c++ examples/loopback.c tests/c/names.c
	$(CC) -std=c99 $(WARNINGS) -Iinclude tests/c/layout.c $(LIB)/libpenguinjug.a target/staticlib/libcapi_fields.a -o target/hosts/layout
	$(CC) -std=c99 $(WARNINGS) -Iinclude tests/c/names.c $(LIB)/libpenguinjug.a -o target/hosts/names
	$(CC) -std=c99 $(WARNINGS) -Iinclude tests/c/host.c $(LIB)/libpenguinjug.a -o target/hosts/host
	$(CC) -std=c99 $(WARNINGS) -Iinclude examples/loopback.c $(LIB)/libpenguinjug.a -o target/hosts/loopback
	target/hosts/layout
	target/hosts/names
	$(CARGO) test $(RUST)
	RUSTDOCFLAGS='-D warnings' $(CARGO) doc --no-deps $(RUST)
	$(CARGO) build --examples $(RUST)
	python3 tests/hosts.py target/hosts/host target/rust/debug/examples/host
	target/hosts/loopback > target/hosts/loopback.c.out
	target/rust/debug/examples/loopback > target/hosts/loopback.rs.out
	cmp target/hosts/loopback.c.out target/hosts/loopback.rs.out
	folder=$$(mktemp -d) && trap 'rm -rf "$$folder"' EXIT && $(MAKE) install PREFIX="$$folder/prefix" && CC="$(CC)" python3 tests/readme.py "$$folder"

bench:
	$(call PROGRAM,lineview)
	$(call STATICLIB,bench_receive)
	$(call STATICLIB,bench_octets)
	$(call STATICLIB,bench_check)
	$(call STATICLIB,bench_calls)
	cargo build --release --offline --locked --manifest-path bench/Cargo.toml --target-dir target/bench
	target/bench/release/bench
