# make report      runs the report program on a file of records (RECORDS=file for another one)
# make replay      runs packet_replay on a night's records (NIGHT=file for another one)
# make test        everything: layout, contracts, papers, the C programs without the library, all proofs, wrong answers
#                  and programs, and the C boundary of the proved library; the last line is the verdict of rt ci,
#                  printed only if everything passed
# make boundary    the C boundary: the library against the second program, call by call, and the example driver
# make carry       builds build/carry, the longer example, and tests its edge cases
# make sound       ten seconds of sound from sox over each carrier and back, undamaged and damaged
# make night       a minute of four tenants' sound through hub; both programs read its records; page build/night.html
# make promises    regenerates docs/WRONG-ANSWERS.md from the edit files
# make statements  writes build/statements.md: each promise with the full text of the statements that it names
# make pages       regenerates man/lampcoil.3 from the header
# make lib         proves the library and builds build/liblampcoil.a for C on x86-64
# make shared      builds the shared library from the archive, build/liblampcoil.so.N, N the major version
# make install     installs archive, shared library, header, pkg-config file, both programs and all manual pages under
#                  DESTDIR and PREFIX
# make uninstall   removes them
# make deb         builds Debian packages of what make install installs, lints and tests them
# make own         builds build/own/liblampcoil.a, the proved library compiled for this machine's own processor
# make compare_own compares that library with the second program (CALLS=n of each group)
# make bench       benchmarks against C by hand; writes docs/FIGURES.md
# make stack       the stack depth of a call of each entry
# make counts      the x86-64 instructions of a call of each row of make bench
# make model       cycles of the loops of the writers, the AES3 reader and the level sheet, by models of two processors
# make expected    regenerates the expected output of tests from the second program
# make mutants     mutation test of the comparing program, on mutants of the second program
# make tried       runs every program without proof, on the interpreter and compiled with checks
# make installed   tests install and uninstall in a separate folder
# make clean       removes what was built
.POSIX:
.NOTPARALLEL:
.PHONY: report test read alone proofs edits boundary lib program install uninstall bench expected mutants promises \
	clean header second held hand listed compare flips card installed
.PHONY: kit prefix deb pages tried shared failing carry carry_alone sound replay counts model stack own compare_own
.PHONY: night night_alone night_short hub statements layout rest verdict

PREFIX = /usr/local
DESTDIR =
RECORDS = examples/desk.rec
NIGHT = examples/night.rec

# Mutants that are compiled and tried at a time: somewhat more than the processors of a small machine, since each batch
# waits for its slowest member.
JOBS = 5

CC = cc
CFLAGS = -std=c11 -O2 -Wall -Wextra -Werror -pedantic
INCLUDES = -Iinclude -Itests/second
ARCHIVE = build/liblampcoil.a
X86 = tests/on-x86

SECOND = tests/second/second.c tests/second/second_status.c tests/second/second_length.c tests/second/second_aes3.c \
	tests/second/second_madi.c tests/second/second_hd.c tests/second/second_control.c tests/second/second_talkback.c \
	tests/second/second_patch.c tests/second/second_leases.c tests/second/second_levels.c tests/second/second_replay.c
SPOIL = tests/second/spoil.c
COMPARE = tests/compare/compare.c tests/compare/edges.c tests/compare/compare_small.c tests/compare/compare_hd.c \
	tests/compare/compare_control.c tests/compare/compare_madi.c tests/compare/compare_commands.c \
	tests/compare/compare_aes3.c tests/compare/compare_length.c tests/compare/compare_talkback.c \
	tests/compare/compare_patch.c tests/compare/compare_leases.c tests/compare/compare_levels.c \
	tests/compare/compare_replay.c
HAND = bench/hand_aes3.c bench/hand_madi.c bench/hand_hd.c bench/hand_control.c bench/hand_talkback.c \
	bench/hand_patch.c bench/hand_levels.c bench/hand_leases.c bench/hand_replay.c
FORMED = bench/formed_aes3.c bench/formed_madi.c bench/formed_hd.c bench/formed_control.c bench/formed_patch.c \
	bench/formed_levels.c bench/formed_replay.c
CARRY = examples/carry.c examples/carry_back.c
HUB = examples/hub.c examples/hub_plan.c examples/hub_desk.c examples/hub_sound.c examples/hub_aes3.c \
	examples/hub_madi.c examples/hub_hd.c examples/hub_search.c examples/hub_figures.c

# ---- the library and the programs

# One checksum of the kit and of every source, so that an archive built from other sources is never used.
SOURCES = { rt version; find crates crates.txt -name out -prune -o \
	-type f \( -name '*.rt' -o -name '*.antt' -o -name crates.txt \) -exec sha256sum {} + | LC_ALL=C sort; } | sha256sum

# Targets that prove, or build from what is proved, need the kit's command.
kit:
	@command -v rt >/dev/null || \
	    { echo "rt is not on the path: add the folder bin of the Rattle kit to PATH" >&2; exit 2; }

# The crates that the library uses are proved first, several at a time, and then the library itself, which rt builds in
# the folder out/ of its crate. It is copied here, since rt ci removes it there. The checksum is taken before, so a
# source that changes meanwhile makes the archive out of date.
$(ARCHIVE): lib
lib: kit
	@sum=$$($(SOURCES)); \
	if [ -f $(ARCHIVE) ] && [ "$$(cat $(ARCHIVE).sum 2>/dev/null)" = "$$sum" ]; then \
	    echo "lib: $(ARCHIVE) is of these sources"; \
	else \
	    rm -f $(ARCHIVE) $(ARCHIVE).sum; \
	    echo "lib: proving the library and what it is made of; from nothing this takes minutes" >&2; \
	    tests/progress build/log lampcoil lib && cp crates/lampcoil/out/liblampcoil.a $(ARCHIVE) && \
	    echo "$$sum" >$(ARCHIVE).sum && echo "lib: $(ARCHIVE)"; \
	fi

# rt run itself finds what changed since the last proof, and proves only that. It then runs the program, here on no
# input.
PROGRAMS = carrier_report packet_replay
program: kit
	@mkdir -p build/bin
	@for p in $(PROGRAMS); do \
	    [ -f build/bin/$$p ] || \
	        echo "The first run proves $$p and what it is made of, which takes minutes; later ones what changed." >&2; \
	    tests/progress build/log $$p run </dev/null >/dev/null && \
	    { cmp -s crates/$$p/out/$$p build/bin/$$p || install -m 755 crates/$$p/out/$$p build/bin/$$p; } || \
	    { rm -f build/bin/$$p; exit 1; }; done

# The archive is position-independent code (the linker rejects other code here), so it can be a shared library too. Its
# file here has the name by which programs load it; make install adds the other two names. (rt ci refuses links in a
# checkout.)
VERSION = $$(sed -n 's/^.define LAMPCOIL_VERSION "\(.*\)"$$/\1/p' include/lampcoil.h)
MAJOR = $$(sed -n 's/^.define LAMPCOIL_VERSION_MAJOR //p' include/lampcoil.h)
shared: lib
	@mkdir -p build
	rm -f build/liblampcoil.so*
	so=liblampcoil.so.$(MAJOR); \
	$(X86) dynamic -shared -Wl,-z,text -Wl,-z,defs -Wl,-soname,$$so -o build/$$so \
	    -Wl,--whole-archive $(ARCHIVE) -Wl,--no-whole-archive && \
	$(X86) dynamic $(CFLAGS) -Iinclude -o build/card_shared examples/card.c build/$$so -Wl,-rpath,"$$(pwd)/build" && \
	$(X86) kit build/card_shared | cmp - examples/card.expected && echo "shared: build/$$so"

# Each of these proves the one program that it runs.
report:
	@$(MAKE) -s program PROGRAMS=carrier_report
	@$(X86) kit build/bin/carrier_report <$(RECORDS)

replay:
	@$(MAKE) -s program PROGRAMS=packet_replay
	@$(X86) kit build/bin/packet_replay <$(NIGHT)

# ---- tests

# A failure anywhere ends the run without the verdict of rt ci, which tests/proofs holds back until everything else has
# passed. .ci/run has the same parts, with rt ci first. Parts that use one processor and do not depend on each other run
# two at a time (tests/at-once).
test: read alone proofs rest verdict

# What needs the proofs of rt ci, or builds on them.
rest: edits
	tests/at-once '$(MAKE) -s tried' '$(MAKE) -s lib'
	$(MAKE) -s boundary

verdict:
	@echo "logs: build/ci.log (rt ci, whole), build/must-fail (each edit file), build/log (each crate of the library)," \
	    "build/tried (each program), build (the C programs)"
	@cat build/verdict

# Checks that only read: the layout, the contracts, the callers' buffers, what proofs unfold, the papers; and that these
# checks fail where they must (tests/spoilt/try).
read: kit layout
	tests/contracts
	tests/lent
	tests/spoilt/try
	tests/unfoldings
	tests/promises
	$(MAKE) -s statements
	tests/papers

# Every file of a crate is laid out as rt fmt does it.
layout: kit
	@rt=$$(readlink -f "$$(command -v rt)"); \
	find crates -name out -prune -o -type f \( -name '*.rt' -o -name '*.antt' \) \
	    -exec "$${rt%/*}/rattle" fmt --check {} + || \
	    { echo "layout: run rt fmt in the folders of these crates" >&2; exit 1; }

# The C programs without the library.
alone: header build/watched.o build/sound_tool build/night_tool
	tests/at-once '$(MAKE) -s second held carry_alone night_alone' '$(MAKE) -s hand'
	$(MAKE) -s mutants

# All proofs, wrong answers and programs; then the reason why each wrong answer was rejected.
proofs: kit
	tests/proofs

edits: kit
	tests/edits

boundary: lib build/sound_tool build/night_tool
	tests/at-once '$(MAKE) -s compare' '$(MAKE) -s listed flips card carry failing night_short installed'

# The manual page of the library, from the header.
pages:
	@mkdir -p build
	man/from-header >build/lampcoil.3
	cp build/lampcoil.3 man/lampcoil.3

promises:
	@mkdir -p build
	tests/promises --list >build/wrong-answers.md
	cp build/wrong-answers.md docs/WRONG-ANSWERS.md

# Each promise with its statements, for a reader who compares the two; fails if a statement does not exist.
statements:
	@mkdir -p build
	tests/statements >build/statements.md

# The second program under the library's names, for its own tests and for expected output.
build/stand_in.o: $(SECOND) tests/second/second.h
	@rm -rf build/stand_in && mkdir -p build/stand_in
	for f in $(SECOND) tests/second/second.h; do sed 's/second_/lampcoil_/g' $$f >build/stand_in/$${f##*/}; done
	for f in $(SECOND); do $(CC) -std=c11 -O2 -c -o build/stand_in/$${f##*/}.o build/stand_in/$${f##*/} || exit 1; done
	ld -r -o $@ build/stand_in/*.o

# The same with sanitisers, where the compiler has them. No memory is allocated, so the search for leaks is off: it takes
# seconds at the end of every program.
WATCHED = ASAN_OPTIONS=detect_leaks=0
build/watched.o: build/stand_in.o
	@rm -rf build/watched && mkdir -p build/watched
	CC="$(CC)" tests/sanitise >build/sanitise
	for f in build/stand_in/*.c; do $(CC) -std=c11 -O2 $$(cat build/sanitise) -c -o build/watched/$${f##*/}.o $$f || exit 1; done
	ld -r -o $@ build/watched/*.o

# Compares the header with the Rattle source and its texts with the papers, checks the manual pages, and compiles the
# header as C and, where there is a compiler, as C++.
header:
	tests/header
	tests/texts
	tests/pages
	echo '#include "lampcoil.h"' | $(CC) $(CFLAGS) -Iinclude -x c -fsyntax-only -
	if command -v c++ >/dev/null; then \
	    echo '#include "lampcoil.h"' | c++ -std=c++11 -Wall -Wextra -Werror -pedantic -Iinclude -x c++ -fsyntax-only -; fi

# The second program with sanitisers, on examples with a known answer, on every constant of the header, and on every
# change of status bits that a right CRCC excludes. The files of each of these programs begin with its name.
second: build/watched.o
	for t in listed constants caught; do \
	    $(CC) $(CFLAGS) $$(cat build/sanitise) -Iinclude -o build/$${t}_second tests/$$t*.c build/watched.o || exit 1; \
	    $(WATCHED) build/$${t}_second || exit 1; done

# The library on the same tests.
listed: $(ARCHIVE)
	@mkdir -p build
	for t in listed constants caught; do \
	    $(X86) cc $(CFLAGS) -Iinclude -o build/$$t tests/$$t*.c $(ARCHIVE) || exit 1; \
	    $(X86) run build/$$t || exit 1; done

# Every file of expected output is what the second program gives.
held:
	CC="$(CC)" CFLAGS="$(CFLAGS)" tests/make-expected build/expected
	for f in $$(cd build/expected && find . -type f); do cmp build/expected/$$f $$f || exit 1; done

# Compares the C by hand of the benchmarks with the second program: each function that the benchmark calls takes the
# library's place in the comparing program, in a whole run. Then the other search and the functions with the named forms,
# in the groups that call them. Entries that are not written by hand are the second program's own.
hand: build/stand_in.o
	for f in $$(grep -o 'hand_[a-z0-9_]*(' bench/hand.h | tr -d '(' | grep -v '^hand_init_' | sort -u) \
	    $$(sed -n 's/^extern .*) \(formed_[a-z0-9_]*\);$$/\1/p' bench/hand.h); do \
	    grep -q " $$f$$" bench/in_place.h || { echo "hand: $$f is not held to the second program"; exit 1; }; done
	rm -rf build/hand
	mkdir -p build/hand
	for f in bench/hand_start.c $(HAND) $(FORMED) $(SPOIL) $(SECOND); do \
	    $(CC) $(CFLAGS) -O3 $(INCLUDES) -c -o build/hand/$${f##*/}.o $$f || exit 1; done
	$(CC) $(CFLAGS) $(INCLUDES) -Ibench '-DIN_PLACE="in_place.h"' -o build/compare_hand $(COMPARE) build/hand/*.o build/stand_in.o
	build/compare_hand >build/compare_hand.txt || { cat build/compare_hand.txt; exit 1; }
	$(CC) $(CFLAGS) $(INCLUDES) -Ibench '-DIN_PLACE="in_place.h"' -DBY_CANDIDATE -o build/compare_hunt $(COMPARE) build/hand/*.o build/stand_in.o
	build/compare_hunt 20000 0 hunt >build/compare_hunt.txt || { cat build/compare_hunt.txt; exit 1; }
	$(CC) $(CFLAGS) $(INCLUDES) -Ibench '-DIN_PLACE="in_place.h"' -DBY_FORMS -o build/compare_forms $(COMPARE) build/hand/*.o build/stand_in.o
	for g in small aes3 length madi commands hd control patch levels replay; do \
	    build/compare_forms 20000 0 $$g >build/compare_forms.txt || { cat build/compare_forms.txt; exit 1; }; done
	tests/compared build/compare_hand.txt
	$(CC) $(CFLAGS) -O3 $(INCLUDES) -o build/report_native bench/report_hand.c $(HAND)
	build/report_native <examples/desk.rec | cmp - examples/desk.expected

# The library against the second program, call by call.
compare: $(ARCHIVE)
	@mkdir -p build
	$(X86) cc $(CFLAGS) $(INCLUDES) -o build/compare $(COMPARE) $(SPOIL) $(SECOND) $(ARCHIVE)
	$(X86) run build/compare >build/compare.txt || { cat build/compare.txt; exit 1; }
	cat build/compare.txt
	tests/compared build/compare.txt
	$(X86) watch build/compare 6000

# Each symbol of one block inverted alone, and every subframe made odd; compared with the second program.
flips: $(ARCHIVE)
	@mkdir -p build
	$(X86) cc $(CFLAGS) $(INCLUDES) -o build/flips tests/flips.c $(SPOIL) $(SECOND) $(ARCHIVE)
	$(X86) run build/flips

# The example driver over the library.
card: $(ARCHIVE)
	@mkdir -p build
	$(X86) cc $(CFLAGS) $(INCLUDES) -o build/card examples/card.c $(ARCHIVE)
	$(X86) run build/card >build/card.txt
	cmp build/card.txt examples/card.expected

# The longer example: its edge cases over the second program, with sanitisers, and over the library.
build/sound_tool: tests/sound_tool.c
	@mkdir -p build
	$(CC) $(CFLAGS) -o $@ tests/sound_tool.c

carry_alone: build/watched.o build/sound_tool
	$(CC) $(CFLAGS) $$(cat build/sanitise) -Iinclude -o build/carry_second $(CARRY) build/watched.o
	$(WATCHED) tests/carry build/sound_tool build/carry_second

carry: $(ARCHIVE) build/sound_tool
	$(X86) cc $(CFLAGS) -Iinclude -o build/carry $(CARRY) $(ARCHIVE)
	tests/carry build/sound_tool $(X86) run build/carry

# Not part of the gate: docs/SOUND.md says how long it takes.
sound: carry program
	tests/sound build "$(X86) kit build/bin/carrier_report" $(X86) run build/carry

# A night at the hub (docs/NIGHT.md). Over the second program: two seconds; edge cases with sanitisers; and a test that
# its verdict can fail. Over the library: two seconds, with the report and the replay of their records. Not part of the
# gate: a minute.
build/night_tool: tests/night_tool.c
	@mkdir -p build
	$(CC) $(CFLAGS) -o $@ tests/night_tool.c

night_alone: build/watched.o build/night_tool
	$(CC) $(CFLAGS) -Iinclude -o build/hub_second $(HUB) build/stand_in.o
	$(CC) $(CFLAGS) -Iinclude -o build/levels_second examples/levels.c build/stand_in.o
	tests/night build/night_second build/night_tool build/hub_second build/levels_second
	$(CC) $(CFLAGS) $$(cat build/sanitise) -Iinclude -o build/hub_watched $(HUB) build/watched.o
	$(CC) $(CFLAGS) $$(cat build/sanitise) -Iinclude -o build/levels_watched examples/levels.c build/watched.o
	$(WATCHED) tests/night_edges build/night_tool build/hub_watched build/levels_watched
	CC="$(CC)" tests/night_residue build/night_tool build/stand_in

hub: $(ARCHIVE)
	@mkdir -p build
	$(X86) cc $(CFLAGS) -Iinclude -o build/hub $(HUB) $(ARCHIVE)
	$(X86) cc $(CFLAGS) -Iinclude -o build/levels examples/levels.c $(ARCHIVE)

night_short: hub program build/night_tool
	tests/night build/night_short build/night_tool "$(X86) run build/hub" "$(X86) run build/levels" "$(X86) kit"

night: hub program build/night_tool
	tests/night_long build build/night_tool "$(X86) run build/hub" "$(X86) kit"

# Each program when its output cannot be written or its input cannot be read, and when its input comes in parts.
failing: program
	tests/failing build/bin/carrier_report carrier_report 'carrier report 1' 'records 0'
	tests/failing build/bin/packet_replay packet_replay "$$(echo 'packet replay 1'; \
	    for g in 1 2 3 4; do echo "group $$g read 0 lanes 0 last none breaks 0"; done)" end silent
	tests/live build/bin/carrier_report carrier_report examples/desk.rec examples/desk.expected 'carrier report 1'
	tests/live build/bin/packet_replay packet_replay examples/night.rec examples/night.expected

mutants:
	CC="$(CC)" JOBS=$(JOBS) tests/compare/mutants

# Every program on the interpreter and compiled with checks, without proof: a test of the kit's back end, beside the two
# compilers by which rt ci builds and runs each of them.
tried:
	tests/tried build/tried

expected:
	CC="$(CC)" CFLAGS="$(CFLAGS)" tests/make-expected build/expected
	cp -R build/expected/. .

# ---- figures

# The proved library compiled for this machine's own processor, for benchmarks and many more calls; bench/own says how.
OWN = build/own/liblampcoil.a
own: lib
	@if [ -f $(OWN) ] && cmp -s $(ARCHIVE).sum $(OWN).sum; then echo "own: $(OWN) is of these sources"; else \
	    rm -f $(OWN).sum; bench/own $(OWN) && cp $(ARCHIVE).sum $(OWN).sum; fi

# CALLS random calls of each group.
CALLS = 1000000
compare_own: own
	$(CC) $(CFLAGS) $(INCLUDES) -o build/own/compare $(COMPARE) $(SPOIL) $(SECOND) $(OWN)
	build/own/compare $(CALLS) >build/own/compare.txt || { cat build/own/compare.txt; exit 1; }
	cat build/own/compare.txt
	tests/compared build/own/compare.txt

bench: $(ARCHIVE) program
	@mkdir -p build
	bench/link build "bench/kit-cc -std=c11 -O3 $(INCLUDES)" $(ARCHIVE) bench/bench.c bench/rows.c $(HAND) $(FORMED)
	$(X86) cc $(CFLAGS) -O3 $(INCLUDES) -o build/report_hand bench/report_hand.c $(HAND)
	$(CC) $(CFLAGS) $(INCLUDES) -o build/mixed_records tests/second/mixed_records.c tests/second/records.c $(SPOIL) $(SECOND)
	build/mixed_records 20000 2 >build/many.rec
	$(CC) $(CFLAGS) $(INCLUDES) -o build/night_records tests/second/night_records.c tests/second/records.c $(SPOIL) $(SECOND)
	build/night_records 20000 2 end >build/night.rec
	bench/run build >build/figures.md
	cp build/figures.md docs/FIGURES.md
	cat docs/FIGURES.md

# The C of the benchmarks, compiled as for make bench.
build/c_objects: $(ARCHIVE) bench/bench.c bench/bench.h bench/hand.h bench/rows.c $(HAND) $(FORMED)
	@rm -rf $@ && mkdir -p $@
	for f in bench/bench.c bench/rows.c $(HAND) $(FORMED); do \
	    bench/kit-cc -std=c11 -O3 $(INCLUDES) -c -o $@/$${f##*/}.o $$f || exit 1; done

counts: build/c_objects
	$(X86) cc -o build/bench_counted build/c_objects/*.o $(ARCHIVE)
	bench/instructions build/bench_counted

stack: $(ARCHIVE)
	@mkdir -p build
	$(X86) cc $(CFLAGS) $(INCLUDES) -o build/stack bench/stack.c bench/rows.c $(HAND) $(FORMED) $(ARCHIVE)
	$(X86) run build/stack

model: build/c_objects
	@echo "| function | instructions | Skylake | Zen 3 |"
	@echo "|---|---|---|---|"
	@bench/model build $(ARCHIVE) lampcoil_aes3_write lampcoil_aes3_read lampcoil_madi_write lampcoil_level_add
	@bench/model build build/c_objects/hand_aes3.c.o hand_aes3_write hand_aes3_read
	@bench/model build build/c_objects/formed_aes3.c.o formed_aes3_write formed_aes3_read
	@bench/model build build/c_objects/hand_madi.c.o hand_madi_write
	@bench/model build build/c_objects/formed_madi.c.o formed_madi_write
	@bench/model build build/c_objects/hand_levels.c.o hand_level_add

# ---- installing

# The prefix goes into the pkg-config file and to a compiler. So it is an absolute path, of characters that have no
# special meaning to sed, pkg-config or a shell; a blank is allowed.
prefix:
	@case '$(PREFIX)' in \
	    [!/]* | '' | *[!A-Za-z0-9_./+~@:,\ -]*) \
	        echo "PREFIX is '$(PREFIX)': it must begin with / and have only letters, digits, blanks and _ . / + ~ @ : , -" >&2; \
	        exit 2 ;; esac

AT = $(DESTDIR)$(PREFIX)
install: prefix lib shared program
	@mkdir -p build
	sed -e 's|@PREFIX@|$(PREFIX)|' -e "s|@VERSION@|$(VERSION)|" lampcoil.pc.in >build/lampcoil.pc
	install -d "$(AT)/lib/pkgconfig" "$(AT)/include" "$(AT)/bin" "$(AT)/share/man/man1" "$(AT)/share/man/man3"
	install -m 644 $(ARCHIVE) "$(AT)/lib/liblampcoil.a"
	install -m 644 build/liblampcoil.so.$(MAJOR) "$(AT)/lib/liblampcoil.so.$(VERSION)"
	ln -sf liblampcoil.so.$(VERSION) "$(AT)/lib/liblampcoil.so.$(MAJOR)"
	ln -sf liblampcoil.so.$(MAJOR) "$(AT)/lib/liblampcoil.so"
	install -m 644 include/lampcoil.h "$(AT)/include/lampcoil.h"
	install -m 644 build/lampcoil.pc "$(AT)/lib/pkgconfig/lampcoil.pc"
	install -m 644 man/lampcoil.3 "$(AT)/share/man/man3/lampcoil.3"
	for p in $(PROGRAMS); do \
	    install -m 755 build/bin/$$p "$(AT)/bin/$$p" && \
	    install -m 644 man/$$p.1 "$(AT)/share/man/man1/$$p.1" || exit 1; done

uninstall: prefix
	rm -f "$(AT)/lib/liblampcoil.a" "$(AT)/lib/liblampcoil.so" "$(AT)/lib/liblampcoil.so.$(MAJOR)" \
	    "$(AT)/lib/liblampcoil.so.$(VERSION)" "$(AT)/include/lampcoil.h" "$(AT)/lib/pkgconfig/lampcoil.pc" \
	    "$(AT)/share/man/man3/lampcoil.3"
	for p in $(PROGRAMS); do rm -f "$(AT)/bin/$$p" "$(AT)/share/man/man1/$$p.1"; done

installed: lib shared program
	tests/install

# Not part of the gate: README.md says how long it takes.
deb: lib shared program
	tests/packages build/deb

clean:
	rm -rf build crates/*/out
