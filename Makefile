# make demo         two booths, a branch and a key distributor on one machine, with real handshakes: docs/DEMO.md
# make screen       the screen for the desk beside booths that come and go, until Ctrl-C: docs/SCREEN.md
# make test         the whole gate: tests, proofs, wrong programs, programs
# make vectors      run the worked octets and print each answer
# make check        prove what changed and run the programs
# make fmt          lay the sources out
# make bench        ns per call of the distributor's calls, the branches of their search, their stack; ns per block and
#                   per wrapping: docs/BENCHMARKS.md
# make relay        target/bin/relay, the program that holds the table: docs/RELAY.md
# make examples     build/branch, a daemon in C; build/branch-demo, the same with the demo's control socket
#
# For C (docs/TESTING.md says what each test does):
# make lib          build/libshawm.a, build/libshawm.so, build/include/shawm.h, build/shawm.pc
# make install      the same four below PREFIX (/usr/local), inside DESTDIR; make uninstall takes them away
# make outside      the tests by programs that share nothing with the proofs, as the gate runs them
# make soak         random comparisons for SOAK_SECONDS (600), from SEED (1) on
# make constant-time  what time, memory and stack tell of a key or a plaintext: wants Debian's valgrind
# make faults       wrong libraries, each of which the tests must find
# make edits        more wrong programs, each of which the prover must refuse
# make branch-faults  wrong branches, each of which the tests must find
# make screen-faults  wrong screens, each of which the tests must find
# make test-screen  what the screen shows in a browser, with pictures in build/screen: wants Debian's chromium
# make test-clang   the C tests by clang: wants Debian's clang
# make fuzz         libFuzzer for FUZZ_SECONDS (60): wants Debian's clang
# make test-tshark  what tshark says of the captured packets, against what is stored: wants Debian's tshark
# make clean        remove what was built
.PHONY: demo screen test vectors check fmt bench relay examples lib install uninstall outside soak constant-time faults edits branch-faults screen-faults test-screen test-clang fuzz test-tshark clean

PREFIX ?= /usr/local
DESTDIR ?=
SOAK_SECONDS ?= 600
FUZZ_SECONDS ?= 60
SEED ?= 1

sources := crates.txt $(shell find crates -type f -not -path '*/out/*')

demo: build/branch-demo target/bin/relay build/libshawm.so
	@examples/demo

screen: build/branch-demo target/bin/relay build/libshawm.so
	@screen/demo

test:
	bash .ci/run

vectors: | build
	@cd crates/vectors && rt run < stdin 2> ../../build/vectors.log || { tail -n 20 ../../build/vectors.log; exit 1; }

check:
	rt all check

fmt:
	for crate in crates/*/; do (cd "$$crate" && rt fmt) || exit 1; done

bench: build/libshawm.a target/staticlib/libmeasure.a
	bench/run bench
	bench/branches
	bench/stack
	bench/run wrap

build:
	@mkdir -p build

relay: target/bin/relay

# Proved and linked, it is run once: on no request it ends at once.
target/bin/relay: $(sources)
	cd crates/relay && rt run < /dev/null
	@mkdir -p target/bin
	cp crates/relay/out/relay $@

branch_sources = $(wildcard examples/branch/*.[ch] examples/branch/control/*.c) examples/branch/build include/shawm.h

examples: build/branch build/branch-demo

build/branch: $(branch_sources) build/libshawm.a
	bash examples/branch/build $@ none

build/branch-demo: $(branch_sources) build/libshawm.a
	bash examples/branch/build $@ compare

lib: build/libshawm.a build/libshawm.so build/include/shawm.h build/shawm.pc

build/libshawm.a: $(sources)
	cd crates/shawm && rt lib
	@mkdir -p build
	cp crates/shawm/out/libshawm.a $@

target/staticlib/libmeasure.a: $(sources)
	cd crates/measure && rt lib
	@mkdir -p target/staticlib
	cp crates/measure/out/libmeasure.a $@

# The same functions for a program that loads them as it runs, as the screen does.
build/libshawm.so: build/libshawm.a
	$(CC) -shared -nostartfiles -Wl,-soname,libshawm.so.0 -Wl,-Bsymbolic,-z,defs,-z,now,-z,relro,-z,noexecstack \
	    -Wl,--whole-archive $< -Wl,--no-whole-archive -o $@

build/include/shawm.h: include/shawm.h
	@mkdir -p build/include
	cp include/shawm.h $@

# Found from its own place, so the folder may be moved.
build/shawm.pc: include/shawm.pc.in
	@mkdir -p build
	sed 's|@PREFIX@|$${pcfiledir}|; s|@LIBDIR@|$${pcfiledir}|; s|@INCLUDEDIR@|$${pcfiledir}/include|' $< > $@

# The shared form has no name without a number, so that -lshawm goes on to find the archive.
install: lib
	install -d '$(DESTDIR)$(PREFIX)/lib/pkgconfig' '$(DESTDIR)$(PREFIX)/include'
	install -m 644 build/libshawm.a '$(DESTDIR)$(PREFIX)/lib/libshawm.a'
	install -m 755 build/libshawm.so '$(DESTDIR)$(PREFIX)/lib/libshawm.so.0'
	install -m 644 include/shawm.h '$(DESTDIR)$(PREFIX)/include/shawm.h'
	sed 's|@PREFIX@|$(PREFIX)|; s|@LIBDIR@|$${prefix}/lib|; s|@INCLUDEDIR@|$${prefix}/include|' include/shawm.pc.in \
	    > '$(DESTDIR)$(PREFIX)/lib/pkgconfig/shawm.pc'
	chmod 644 '$(DESTDIR)$(PREFIX)/lib/pkgconfig/shawm.pc'

uninstall:
	rm -f '$(DESTDIR)$(PREFIX)/lib/libshawm.a' '$(DESTDIR)$(PREFIX)/lib/libshawm.so.0' \
	    '$(DESTDIR)$(PREFIX)/include/shawm.h' '$(DESTDIR)$(PREFIX)/lib/pkgconfig/shawm.pc'

outside:
	bash tests/run

soak: lib
	bash tests/differential/run --seconds $(SOAK_SECONDS) --seed $(SEED)

constant-time: lib
	@command -v valgrind > /dev/null || { echo 'wants: apt-get install valgrind'; exit 1; }
	bash tests/constant_time/run
	bash tests/constant_time/remnants

faults:
	python3 tests/faults/run

edits:
	tests/edits/run

branch-faults: build/libshawm.a build/libshawm.so target/bin/relay
	python3 tests/branch/faults

screen-faults: build/libshawm.so
	python3 tests/screen/faults

test-screen: build/libshawm.so
	@command -v chromium > /dev/null || { echo 'wants: apt-get install chromium'; exit 1; }
	python3 tests/screen/browser

test-clang: lib
	@command -v clang++ > /dev/null || { echo 'wants: apt-get install clang'; exit 1; }
	CC=clang CXX=clang++ bash tests/c/header
	CC=clang CXX=clang++ bash tests/c/answers
	CC=clang CXX=clang++ bash tests/c/examples

fuzz: lib
	@command -v clang > /dev/null || { echo 'wants: apt-get install clang'; exit 1; }
	bash tests/fuzz/search $(FUZZ_SECONDS)

test-tshark:
	@command -v tshark > /dev/null || { echo 'wants: apt-get install tshark'; exit 1; }
	bash tests/agreement/views

clean:
	rm -rf build target bench/target crates/*/out
