# make run       a controller in C polls a chain over a noisy wire (ARGS='--noise wild'; ARGS=--help lists what there is)
# make showlog   print a wire log that a controller wrote, a line a record (LOG=FILE; make run ARGS='--log FILE' writes one)
# make test      every test and every proof; the last line is rt's 'N passed, M failed'
# make lib       build/librig.a, the C entries of include/rig.h, from the proved crates
# make dist      build/dist/rig.c and rig.h, the same entries as C99 for any processor, printed from the proved code
# make test-arm  the C tests of rig.c on 32-bit Arm, and its size and stack on a Cortex-M4; make test-powerpc on a big-endian processor
# make test-x86-64  the C tests of the toolchain's archive and of rig.c on x86-64, on a machine of another kind (there make test runs it)
# make install   header, archive and rig.pc for pkg-config under PREFIX (default /usr/local)
# make bench     how long the entries take beside plain C and beside second/ (ARGS=cells: the rows with that in their name)
# make count-x86-64  how many instructions they take on x86-64, on a machine of any kind (ARGS as for bench)
# make cost      fail where a chain call takes more than 1.1 times the instructions of plain C (make test runs it)
# make fuzz      inputs to the C entries as long as one likes (FUZZ=-runs=N: N of them)
# make fmt       lay out every Rattle, proof and Rust file
.PHONY: run showlog test test-arm test-powerpc test-x86-64 lib dist install bench count-x86-64 fuzz fmt need second header against printed builds lane-gcc lane-clang sanitized manual readme ctest example showlogs entries fuzz_some dist_alone cost FORCE

PREFIX ?= /usr/local
VERSION := 3.0.0
CHECKED := -Wall -Wextra -Wpedantic -Werror -Iinclude
ARCHIVE := build/librig.a
# What the toolchain compiles, which is for x86-64 only. On a machine of another kind librig.a is rig.c, compiled there.
X86_64 := build/x86-64/librig.a
ON_X86_64 := $(filter x86_64,$(shell uname -m))
SECOND := build/bench/release/libsecond_c.a
C99 := gcc -std=c99 -O2 $(CHECKED)
# The crates that the archive and rig.c come from. `rt lib` in one proves it and those below it, and leaves what it makes in its out/: of a library what
# the crates above read and the MIR of what was proved, of capi_c, whose functions are C's entries, the archive.
CRATES := lent pec conversions frames registers chain host cells tally wake wirelog capi
SOURCES := crates.txt $(shell find $(addprefix crates/,$(CRATES) capi_c) -name out -prune -o '(' -name '*.rt' -o -name '*.antt' ')' -print)
RLIBS = $(foreach crate,$(CRATES),crates/$(crate)/out/rlib/$(crate).rlib) $(wildcard $(dir $(shell rt doc))rlibs/*.rlib)

# What the tests run against: a library, where they put what they build, what builds and links them, and how long they fuzz.
LIB ?= $(ARCHIVE)
OUT ?= build/archive
TEST_CC ?= gcc -std=c99 -O2
FUZZ_CC ?= clang -std=c99 -g -O1 -fsanitize=fuzzer,undefined -fno-sanitize-recover=undefined
FUZZ_RUNS ?= 1000000

# rig.c, and the ways it is built for the tests.
RIG_C := build/rig.c
BUILDS := gcc-O0 gcc-O2 gcc-O3 clang-O0 clang-O2 clang-O3
SANITIZE := -fsanitize=address,undefined -fno-sanitize=function,vptr -fno-sanitize-recover=all

# The two programs of examples/.
SHOWLOG := examples/showlog.c examples/names.c
CONTROLLER := $(filter-out $(SHOWLOG),$(wildcard examples/*.c))

run: build/controller
	@build/controller $(ARGS)

showlog: build/showlog
	@test -n '$(LOG)' || { echo "showlog: name the log: make showlog LOG=FILE (make run ARGS='--log FILE' writes one)" >&2; exit 2; }
	@build/showlog '$(LOG)'

build/controller: $(CONTROLLER) $(wildcard examples/*.h) include/rig.h $(ARCHIVE)
	@$(C99) $(filter %.c,$^) $(ARCHIVE) -o $@

build/showlog: $(SHOWLOG) examples/names.h include/rig.h $(ARCHIVE)
	@$(C99) $(filter %.c,$^) $(ARCHIVE) -o $@

test: need second header $(if $(ON_X86_64),,test-x86-64) against printed builds dist_alone cost
	@echo '== rt ci: prove every crate, try every must-fail edit, run every program'
	@mkdir -p build
	@bash -o pipefail -c 'rt ci 2>&1 | tee build/ci.log'
	@grep '^rt: ok; ' build/ci.log | grep -v ' refused[^;]*, [0-9]* bad' | grep -q '; must-fail edits: [0-9]* refused' || \
	    { echo 'test: rt ci does not say that every must-fail edit was refused (build/ci.log)' >&2; exit 1; }

need:
	@tools/need

lib: $(ARCHIVE)

$(ARCHIVE): $(if $(ON_X86_64),$(X86_64),build/c/gcc-O2/librig.a)
	@cp $< $@
	@echo '== lib: $@ and include/rig.h are ready$(if $(ON_X86_64),,: rig.c as gcc -O2 compiles it for this machine)'

$(X86_64): $(SOURCES) | need
	@echo '== archive: prove what it holds, and compile it for x86-64'
	@mkdir -p $(@D)
	@bash -o pipefail -c '(cd crates/capi_c && rt lib) 2>&1 | tee build/lib.log | { grep --line-buffered "^crate " || true; }' || { tail -40 build/lib.log; exit 1; }
	@cp crates/capi_c/out/libcapi_c.a $@

# The proved MIR as C99. Every function that is printed, and every type, is held to the MIR of its proved crate.
$(RIG_C): $(SOURCES) include/rig.h tools/mir tools/mir2c tools/declared.py $(wildcard tools/printer/*.py) build/revision | need
	@echo '== rig.c: prove what is printed, and print it'
	@(cd crates/capi && rt lib) > build/check.log 2>&1 || { tail -40 build/check.log; exit 1; }
	@tools/mir $(RLIBS) > build/capi.mir
	@tools/mir2c build/capi.mir include/rig.h "$$(rt version)" "$$(cat build/revision)" $(RLIBS) > $@.new
	@mv $@.new $@

build/revision: FORCE
	@mkdir -p build
	@said=$$(git describe --always --abbrev=40 --dirty=', with changes' 2> /dev/null || echo 'not known'); \
	    test "$$said" = "$$(cat $@ 2> /dev/null)" || echo "$$said" > $@

dist: $(RIG_C)
	@mkdir -p build/dist
	@cp $(RIG_C) include/rig.h build/dist
	@echo '== dist: build/dist/rig.c and rig.h are all that a project needs'

build/c/%/librig.a: $(RIG_C)
	@mkdir -p $(@D)
	@$(firstword $(subst -, ,$*)) -std=c99 -$(lastword $(subst -, ,$*)) $(CHECKED) -Wconversion -c $(RIG_C) -o $(@D)/rig.o
	@rm -f $@ && ar rcs $@ $(@D)/rig.o

build/c/sanitized/librig.a: $(RIG_C)
	@mkdir -p $(@D)
	@clang -std=c99 -g -O1 $(SANITIZE) $(CHECKED) -Wconversion -c $(RIG_C) -o $(@D)/rig.o
	@rm -f $@ && ar rcs $@ $(@D)/rig.o

install:
	@test -f $(LIB) || { echo 'install: there is no $(LIB): run make lib first' >&2; exit 1; }
	install -d '$(DESTDIR)$(PREFIX)/include' '$(DESTDIR)$(PREFIX)/lib/pkgconfig'
	install -m 644 include/rig.h '$(DESTDIR)$(PREFIX)/include/rig.h'
	install -m 644 $(LIB) '$(DESTDIR)$(PREFIX)/lib/librig.a'
	sed -e 's|@PREFIX@|$(abspath $(PREFIX))|' -e 's|@VERSION@|$(VERSION)|' tools/rig.pc.in > '$(DESTDIR)$(PREFIX)/lib/pkgconfig/rig.pc'

# The header compiles alone, as C and as C++, and says what the crates and the archive have.
header: $(X86_64)
	@echo '== header: rig.h compiles alone with no warning, and has what the crates and the archive have'
	@for std in c99 c11 c17; do for cc in gcc clang; do $$cc -std=$$std $(CHECKED) -x c -fsyntax-only include/rig.h || exit 1; done; done
	@for std in c++98 c++11 c++17; do clang++ -std=$$std $(CHECKED) -x c++ -fsyntax-only include/rig.h || exit 1; done
	@tools/header include/rig.h $(X86_64)

# Every test of a library: the archive, or a build of rig.c.
against: manual readme ctest example showlogs entries fuzz_some

# rig.c with no warning in C99 and C11, and the same bytes when it is printed again.
printed: $(RIG_C)
	@echo '== rig.c: no warning as C99 and C11, nothing found by cppcheck, the same bytes when printed again'
	@for cc in gcc clang; do for std in c99 c11; do $$cc -std=$$std -O2 $(CHECKED) -Wconversion -c $(RIG_C) -o build/c.o || exit 1; done; done
	@cppcheck --quiet --std=c99 --enable=warning,portability,performance --error-exitcode=1 --suppress=missingIncludeSystem -Iinclude $(RIG_C)
	@(cd crates/capi && rt lib) > build/check.log 2>&1 || { tail -40 build/check.log; exit 1; }
	@tests/mir2c build/capi.mir include/rig.h $(RLIBS)
	@tools/mir $(RLIBS) | cmp - build/capi.mir

# Every test against each build of rig.c, in three lanes of which two run at a time. Each lane builds second/ in a folder of its own.
builds: $(RIG_C) $(SECOND) build/readme.c
	@$(MAKE) --no-print-directory --silent -j2 lane-gcc lane-clang sanitized
	@tools/header include/rig.h build/c/gcc-O2/librig.a

WHAT_HELD := grep -h -e 'checks, 0 failed' -e 'none failed' -e 'test result'
lane-gcc lane-clang: lane-%: $(RIG_C)
	@for build in $(filter $*-%,$(BUILDS)); do \
	    $(MAKE) --no-print-directory --silent build/c/$$build/librig.a && \
	    $(MAKE) --no-print-directory --silent against LIB=build/c/$$build/librig.a OUT=build/c/$$build FUZZ_RUNS=200000 \
	        CARGO_TARGET_DIR=build/$@ > build/c/$$build/log 2>&1 || { tail -40 build/c/$$build/log; exit 1; }; \
	    echo "== rig.c built by $$build: every test" && $(WHAT_HELD) build/c/$$build/log; \
	done

# The search for leaks takes three seconds a program on Arm, and showlog is run some two thousand times: it is left to x86-64.
sanitized: build/c/sanitized/librig.a
	@$(if $(ON_X86_64),,ASAN_OPTIONS=detect_leaks=0) $(MAKE) --no-print-directory --silent against LIB=$< OUT=$(<D) FUZZ_RUNS=200000 NO_STACK=--no-stack \
	    TEST_CC='clang -std=c99 -O1 $(SANITIZE)' FUZZ_CC='clang -std=c99 -g -O1 -fsanitize=fuzzer $(SANITIZE)' \
	    RUSTFLAGS='-Clinker=clang -Clink-arg=-fsanitize=address,undefined' CARGO_TARGET_DIR=build/sanitized > $(<D)/log 2>&1 || { tail -40 $(<D)/log; exit 1; }
	@echo '== rig.c under the address and undefined-behaviour sanitizers of clang: every test' && $(WHAT_HELD) $(<D)/log

# What make dist writes is enough: the example of README.md, the controller and showlog are built of it and of nothing else.
dist_alone: dist readme
	@echo '== dist: the example of README.md, the controller and showlog, built from rig.c and rig.h alone'
	@gcc -std=c99 -Wall -Wextra -Wpedantic -Werror -Ibuild/dist build/readme.c build/dist/rig.c -o build/dist/readme
	@build/dist/readme | diff -u build/readme.said -
	@gcc -std=c99 -O2 -Wall -Wextra -Wpedantic -Werror -Ibuild/dist $(CONTROLLER) build/dist/rig.c -o build/dist/controller
	@build/dist/controller --polls 200 --seed 7 > build/dist/controller.log 2>&1 || { cat build/dist/controller.log; exit 1; }
	@gcc -std=c99 -O2 -Wall -Wextra -Wpedantic -Werror -Ibuild/dist $(SHOWLOG) build/dist/rig.c -o build/dist/showlog
	@build/dist/showlog tests/showlog/run.log | diff -u tests/showlog/run.txt -

test-x86-64: $(X86_64)
test-arm test-powerpc test-x86-64: test-%: $(RIG_C) build/readme.c
	@RIG_TEST='$(RIG_TEST)' CONTROLLER='$(CONTROLLER)' SHOWLOG='$(SHOWLOG)' LOGGED='$(LOGGED)' tests/cross $* $(filter $(RIG_C) $(X86_64),$^)

# The examples of rig.h, built on an installed library as a user would.
manual: $(LIB)
	@echo '== manual: the examples of rig.h run as they stand, as C and as C++, on an installed library'
	@mkdir -p $(OUT)
	@$(MAKE) --no-print-directory --silent install PREFIX=$(OUT)/prefix DESTDIR=
	@sed -n 's/^ \*     \([^ ].*\)$$/\1/p' include/rig.h > $(OUT)/manual.inc
	@$(TEST_CC) -Wall -Wextra -Werror -I$(OUT) -I$(OUT)/prefix/include tests/manual.c -L$(OUT)/prefix/lib -lrig -o $(OUT)/manual
	@$(OUT)/manual
	@clang -x c++ -std=c++11 $(filter -f%,$(TEST_CC)) -Wall -Wextra -Werror -I$(OUT) -I$(OUT)/prefix/include tests/manual.c -x none -L$(OUT)/prefix/lib -lrig -o $(OUT)/manual_cpp
	@$(OUT)/manual_cpp

# The example of README.md prints what README.md says.
build/readme.c: README.md
	@mkdir -p build
	@sed -n '/^```c$$/,/^```$$/p' README.md | sed '/^```/d' > $@
	@sed -n '/^```text$$/,/^```$$/p' README.md | sed '/^```/d' > build/readme.said

readme: manual build/readme.c
	@echo '== readme: the example of README.md runs as it stands'
	@$(TEST_CC) -Wall -Wextra -Wpedantic -Werror -I$(OUT)/prefix/include build/readme.c -L$(OUT)/prefix/lib -lrig -o $(OUT)/readme
	@$(OUT)/readme > $(OUT)/readme.prints
	@diff -u build/readme.said $(OUT)/readme.prints

# The controller holds each poll to the promise itself, and says by its status that it was kept; bad arguments have status 2. In the poll
# before the first conversion cells are unmeasured: over a quiet wire all 18 of 16 devices. Eight of them show DTEN high.
example: $(LIB)
	@echo '== example: the controller over noise that the promise allows, over none, over wild noise, and with bad arguments'
	@mkdir -p $(OUT)
	@$(TEST_CC) $(CHECKED) $(CONTROLLER) $(LIB) -o $(OUT)/controller
	@$(OUT)/controller --polls 2000 --seed 7 > $(OUT)/controller.log 2>&1 && grep -q '^Cells: .* [1-9][0-9]* unmeasured' $(OUT)/controller.log || { cat $(OUT)/controller.log; exit 1; }
	@sed -n -e '/^Cells/p' -e '/^Alarms/p' -e '/^Checked/p' $(OUT)/controller.log
	@$(OUT)/controller --polls 3 --noise none > $(OUT)/controller.log 2>&1 && grep -q '^Cells: 864 valid, 288 unmeasured .* 0 not read' $(OUT)/controller.log && test $$(grep -c '| high |' $(OUT)/controller.log) -eq 8 || { cat $(OUT)/controller.log; exit 1; }
	@$(OUT)/controller --polls 50 --noise wild > $(OUT)/controller.log 2>&1; test $$? -le 1
	@$(OUT)/controller --devices 17 2> $(OUT)/controller.log; test $$? -eq 2

# The stored log is what the controller writes, byte for byte, and showlog prints of it, and of broken ones, what a script makes of them
# from the words of the request. The listing in README.md is the start of the stored one.
showlogs: example
	@echo '== showlog: the log that the controller writes, and broken logs, beside stored listings and those of a script'
	@$(OUT)/controller $(LOGGED) --log $(OUT)/run.log > $(OUT)/controller.log 2>&1 && cmp $(OUT)/run.log tests/showlog/run.log || { cat $(OUT)/controller.log; exit 1; }
	@for file in $(OUT)/run.log/none /dev/full; do $(OUT)/controller $(LOGGED) --log $$file > $(OUT)/controller.log 2>&1; test $$? -eq 1 && grep -q "^controller: --log '$$file'" $(OUT)/controller.log || { cat $(OUT)/controller.log; exit 1; }; done
	@$(TEST_CC) $(CHECKED) -Wconversion $(SHOWLOG) $(LIB) -o $(OUT)/showlog
	@tests/showlog.py $(OUT)/showlog $(OUT)/logs
	@sed -n '/^         place  kind/,/^$$/s/^    //p' README.md > $(OUT)/readme.listing
	@test -s $(OUT)/readme.listing && head -n $$(wc -l < $(OUT)/readme.listing) tests/showlog/run.txt | diff -u $(OUT)/readme.listing -

LOGGED := --devices 3 --polls 1 --seed 191

# The library called from C, by both compilers; the stack that each entry uses is printed.
RIG_TEST := tests/rig_test.c tests/chain_test.c tests/log_test.c tests/lent.c tests/plain.c tests/stack.c
ctest: $(LIB)
	@echo '== ctest: every entry called from C, by clang -O0 too'
	@mkdir -p $(OUT)
	@$(TEST_CC) -Wconversion $(CHECKED) $(RIG_TEST) $(LIB) -o $(OUT)/rig_test
	@$(OUT)/rig_test $(NO_STACK)
	@clang -std=c99 -O0 $(filter -f%,$(TEST_CC)) -Wconversion $(CHECKED) $(RIG_TEST) $(LIB) -o $(OUT)/rig_test_clang
	@$(OUT)/rig_test_clang $(NO_STACK) > $(OUT)/rig_test_clang.log || { cat $(OUT)/rig_test_clang.log; exit 1; }
	@tail -1 $(OUT)/rig_test_clang.log
	@cppcheck --quiet --std=c99 --enable=warning,portability,performance --error-exitcode=1 --suppress=missingIncludeSystem -Iinclude tests

# The second implementation: its own tests, and the vectors' answers as it derives them.
second: need
	@echo '== second: tests of the second implementation'
	@cargo test --offline --quiet --manifest-path second/Cargo.toml
	@echo '== second: the stored answers of the programs vectors and demo are those that it derives'
	@for program in vectors demo; do \
	    cargo run --offline --quiet --manifest-path second/Cargo.toml --bin $$program > second/target/$$program.stdout && \
	    diff -u crates/$$program/stdout second/target/$$program.stdout || exit 1; \
	done

# The library beside the second implementation. RIG_SEED=.. repeats a run of random cases, RIG_CASES=.. says how many.
entries: $(LIB)
	@echo '== entries: every C entry beside the second implementation'
	@RIG_LIB='$(abspath $(LIB))' cargo test --offline --quiet --release --manifest-path second/Cargo.toml --test entries -- --nocapture

# Lent buffers stand flush against inaccessible pages: one byte outside traps.
$(OUT)/fuzz: tests/fuzz.c tests/plain.c tests/plain.h bench/makers.h include/rig.h $(LIB) $(SECOND)
	@mkdir -p $(OUT)
	@$(FUZZ_CC) $(CHECKED) tests/fuzz.c tests/plain.c $(LIB) $(SECOND) -o $@

fuzz_some: $(OUT)/fuzz
	@echo '== fuzz: $(FUZZ_RUNS) inputs to the C entries, lent buffers against inaccessible pages'
	@$(OUT)/fuzz -runs=$(FUZZ_RUNS) -max_len=2200 -print_final_stats=1 -artifact_prefix=$(OUT)/ > $(OUT)/fuzz.log 2>&1 || { tail -40 $(OUT)/fuzz.log; exit 1; }
	@sed -n -e 's/^INFO: Seed: /fuzz: seed /p' -e 's/^stat::number_of_executed_units: */fuzz: inputs run, none failed: /p' $(OUT)/fuzz.log

fuzz: $(OUT)/fuzz
	@echo '== fuzz: end it with ctrl-C; an input that fails is left in $(OUT)'
	@mkdir -p $(OUT)/corpus
	@$(OUT)/fuzz -max_len=2200 -artifact_prefix=$(OUT)/ $(FUZZ) $(OUT)/corpus

bench: build/bench/bench
	@build/bench/bench '$(ARGS)'
	@bench/count build/bench/bench '$(ARGS)'

count-x86-64: build/x86-64/bench
	@bench/count --x86-64 $< '$(ARGS)'

# The instructions of a chain call, of the archive and of rig.c, beside those of plain C: they are the same in every run, and times are not (docs/BENCH.md).
cost: build/bench/bench $(if $(ON_X86_64),,build/x86-64/bench)
	@echo '== cost: the instructions of every chain call are at most 1.1 times those of plain C'
	@bench/count --at-most 1.1 build/bench/bench chain
	@$(if $(ON_X86_64),,bench/count --at-most 1.1 --x86-64 build/x86-64/bench chain)

build/x86-64/bench: $(wildcard bench/*.c bench/*.h) include/rig.h $(X86_64) $(RIG_C)
	@x86_64-linux-gnu-gcc -std=c99 -O2 $(CHECKED) -include bench/renamed.h -c $(RIG_C) -o $(@D)/printed.o
	@x86_64-linux-gnu-gcc -std=c99 -O2 -static -DNO_SECOND $(CHECKED) $(filter bench/%.c,$^) $(@D)/printed.o $(X86_64) -o $@

build/bench/bench: $(wildcard bench/*.c bench/*.h) include/rig.h $(ARCHIVE) build/bench/printed.o $(SECOND)
	@$(C99) $(filter bench/%.c,$^) build/bench/printed.o $(ARCHIVE) $(SECOND) -o $@

build/bench/printed.o: $(RIG_C) bench/renamed.h
	@mkdir -p $(@D)
	@$(C99) -include bench/renamed.h -c $(RIG_C) -o $@

$(SECOND): $(wildcard bench/second/Cargo.* bench/second/src/*.rs second/Cargo.* second/src/*.rs)
	@echo '== second/ as a C library, to be held beside the archive'
	@cargo build --offline --quiet --release --manifest-path bench/second/Cargo.toml --target-dir build/bench

fmt:
	@for crate in crates/*; do echo "rt fmt in $$crate" && (cd $$crate && rt fmt) || exit 1; done
	cargo fmt --manifest-path second/Cargo.toml
	cargo fmt --manifest-path bench/second/Cargo.toml
