# make run        make send, the command and the bench program on the captures, a picture of one of
#                 them, and the example gateway; with CAPTURE=file the bench program on that capture
#                 and nothing else
# make command    build/lernazhup, the command for the bench
# make send       a report to a raw capture: MODE=0, 1 or 2, PROFILE=plain or checked (the
#                 environment's too), REPORT=file, OUT=file
# make check      programs, library and tests from outside: four or five minutes, less where all
#                 is proved already; SEED=.. and CASES=.. repeat a comparison, SEED=.. the fuzzer
#                 and the pictures drawn at random
# make test       the gate: make check, then every proof (`rt ci`)
# make lib        build/liblernazhup.a, build/lernazhup.h and build/lernazhup.pc, for C
# make shared     build/liblernazhup.so
# make install    what `make lib` builds, and the command with its manual page and completion, under
#                 PREFIX (/usr/local), or libdir, includedir, bindir, mandir and datadir, with
#                 DESTDIR before them; `make install-shared` the shared library
# make uninstall  takes all that away from there
# make speed      times against C, stack and sizes
# make instructions  the library against C in instructions, by an emulator: some minutes
# make clean      removes all that was built, and what `rt` keeps in the crates
# make help       these lines
#
# captures/    raw captures to try              include/     the header
# command/     the command `lernazhup`, in C
# crates/      what is proved                   library/     what of the library is C
# docs/        scope, decisions, promises       example/     a small gateway
# programs/    send and bench, for users        tests/       the tests from outside
# comparison/  a second implementation in C, compared with the library; seeded faults
# measure/     speed against C, stack, sizes    tools/       what builds and installs

# two `rt` at once would wait for each other; a file half made is none
.NOTPARALLEL:
.DELETE_ON_ERROR:
.PHONY: run send profile command check test lib shared install install-shared uninstall speed instructions clean help programs outside places always

MODE = 1
# the environment's is looked at: overlooked, it would send a report without its FCS
PROFILE ?= plain
REPORT = example/report
OUT = build/capture.raw
CAPTURE =
PREFIX = /usr/local
libdir = $(PREFIX)/lib
includedir = $(PREFIX)/include
bindir = $(PREFIX)/bin
datadir = $(PREFIX)/share
mandir = $(datadir)/man
DESTDIR ?=
SEED =
CASES =
override VERSION := $(shell tools/version)
# Names go to the scripts by the environment, and as they were given: a blank, a quote or a dollar
# is part of a name.
NAMES = MODE PROFILE REPORT OUT CAPTURE PREFIX libdir includedir bindir datadir mandir DESTDIR SEED CASES
$(foreach name,$(NAMES),$(if $(filter command,$(firstword $(origin $(name)))),$(eval override $(name) := $$(value $(name)))))
export $(NAMES)

CC = tools/cc
CFLAGS = -std=c99 -O2 -Wall -Wextra -pedantic -Werror
ARCHIVE = build/liblernazhup.a
SHARED = build/liblernazhup.so
SONAME = liblernazhup.so.$(firstword $(subst ., ,$(VERSION)))
# the proved programs
PROGRAMS = send bench
TOOLS = Makefile tools/cc tools/sanitizer-flags
# what the archive is made of
ROOMS = codes columns matching strips frame writer order steps reader receiver fcs checked gateway
PROVED := $(shell find $(ROOMS:%=crates/%) -path '*/out' -prune -o -name '*.rt' -print -o -name '*.antt' -print)
COMPARED = compare compared_calls chip_cases octet_cases record_cases lent_memory printed_facts reference
TIMED = usual_read best_read copying_write usual_fcs
# programs of one file
SINGLE = build/gateway build/struct_fields build/header_macros build/vectors build/frame_check build/stack
# the command, and of it what its tests stand on
COMMAND = $(wildcard command/*.c)
TRIED = $(filter-out command/lernazhup.c,$(COMMAND))
vpath %.c example tests measure comparison

# some of the captures are there to be refused, which is status 1
ifeq ($(CAPTURE),)
run: profile programs lib build/lernazhup build/gateway send
	@tools/exec build/lernazhup read captures/*.raw || [ $$? -eq 1 ]
	@tools/exec build/lernazhup look -o build/picture.svg captures/wet-mode1-noisy.raw
	@programs/bench captures/*.raw || [ $$? -eq 1 ]
	@tools/exec build/gateway
else
run: programs
	@programs/bench "$$CAPTURE"
endif

send: profile programs
	@[ "$$PROFILE" = plain ] || set -- -c; programs/send "$$@" "$$MODE" "$$REPORT" "$$OUT"

# another is told before anything is built
profile:
	@case $$PROFILE in \
	plain | checked) ;; \
	*) printf "PROFILE is plain or checked, and not '%s'\n" "$$PROFILE" >&2; exit 2 ;; \
	esac

check:
	@tools/kit-warning
	@$(MAKE) --no-print-directory lib programs
	@$(MAKE) --no-print-directory outside

test: check
	@tools/gate

# every test from outside; each prints a line of counts, and fails where something is wrong. The
# comparison and the fuzzer take one core for as long as all that stand before the faults, and run
# beside them.
outside: $(SINGLE) build/compare build/speed $(SHARED) build/lernazhup build/lernazhup-sanitized build/fuzz_command build/drawn_captures
	@{ comparison/compare-test "$$SEED" "$$CASES" && tests/fuzz-test "$$SEED"; } >build/compare.said 2>&1 & compared=$$!; \
	tests/contracts-test && \
	tests/header-test && \
	tools/exec build/header_macros && \
	tests/install-test && \
	tests/shared-test && \
	tools/exec build/struct_fields && \
	tests/vectors-test && \
	tests/frame-check-test && \
	tests/send-test && \
	tests/bench-test && \
	tests/example-test && \
	tests/command-help-test && \
	tests/command-read-test && \
	tests/command-write-test && \
	tests/command-look-test "$$SEED" && \
	tests/command-pcap-test && \
	tools/exec build/stack && \
	measure/sizes; others=$$?; \
	wait $$compared; status=$$?; cat build/compare.said; [ $$others -eq 0 ] && [ $$status -eq 0 ]
	@env -u CC -u SEED -u CASES comparison/faults-test

speed: lib build/speed build/stack
	@tools/exec build/speed
	@tools/exec build/stack
	@measure/sizes

instructions: lib build/speed
	@measure/instructions

# proves what has changed and links the programs, which runs each on no input; quiet unless it fails
programs:
	@mkdir -p build/proved
	@[ -f build/proved/bench ] || echo 'proving the programs and what they stand on: some minutes the first time'
	@for name in $(PROGRAMS); do \
	(cd crates/$$name && rt run </dev/null) >build/programs.log 2>&1 && cp crates/$$name/out/$$name build/proved || \
	{ tail -n 20 build/programs.log >&2; exit 1; }; done

lib: $(ARCHIVE) build/lernazhup.h build/lernazhup.pc
	@:

# proved first
$(ARCHIVE): crates.txt $(PROVED) build/kit build/words.o
	@mkdir -p build
	@(cd crates/gateway && rt lib) >build/lib.log 2>&1 || { tail -n 20 build/lib.log >&2; exit 1; }
	@cp crates/gateway/out/libgateway.a $@
	@tools/binutils ar r $@ build/words.o

build/words.o: library/words.c build/lernazhup.h $(TOOLS)
	@$(CC) $(CFLAGS) -Ibuild -fPIC -c $< -o $@

command: build/lernazhup
	@:

build/lernazhup: $(COMMAND) $(wildcard command/*.h) build/lernazhup.h $(ARCHIVE) $(TOOLS)
	@$(CC) $(CFLAGS) -Ibuild $(COMMAND) $(ARCHIVE) -o $@

# for its tests, and once for all of them; what makes the command anew makes them anew
build/command-sanitized.a: build/lernazhup
	@rm -rf $@ build/sanitized && mkdir build/sanitized
	@flags=$$(tools/sanitizer-flags) && for part in $(TRIED:command/%.c=%); do \
	$(CC) $(CFLAGS) -Ibuild -g $$flags -c command/$$part.c -o build/sanitized/$$part.o || exit 1; done
	@tools/binutils ar rc $@ build/sanitized/*.o

build/lernazhup-sanitized: command/lernazhup.c build/command-sanitized.a
	@flags=$$(tools/sanitizer-flags) && $(CC) $(CFLAGS) -Ibuild -g $$flags $^ $(ARCHIVE) -o $@

build/fuzz_command build/drawn_captures: build/%: %.c made_captures.c tests/made_captures.h build/command-sanitized.a
	@flags=$$(tools/sanitizer-flags) && $(CC) $(CFLAGS) -Ibuild -Icommand -g $$flags $(filter-out %.h,$^) $(ARCHIVE) -o $@

shared: $(SHARED) build/lernazhup.h
	@:

# a program linked with it asks for the soname; a copy, since `rt ci` refuses links
$(SHARED): $(ARCHIVE) library/names $(TOOLS)
	@$(CC) -shared -Wl,-soname,$(SONAME) -Wl,--version-script=library/names -Wl,-z,defs -Wl,--whole-archive $(ARCHIVE) -Wl,--no-whole-archive -o $@
	@cp --remove-destination $@ build/$(SONAME)

# another kit makes another archive
build/kit: always
	@mkdir -p build
	@rt version | cmp -s - $@ || rt version >$@

build/lernazhup.h: include/lernazhup.h
	@mkdir -p build
	@cp $< $@

build/lernazhup.pc: tools/pkg-config-file include/lernazhup.h
	@mkdir -p build
	@tools/pkg-config-file $(VERSION) '$${pcfiledir}' '$${pcfiledir}' '$${pcfiledir}' >$@

# a place that is of no use is told before anything is built
places:
	@tools/install places

install: places lib command
	@tools/install static

install-shared: places shared
	@tools/install shared

uninstall:
	@tools/install remove

clean:
	@rm -rf build crates/*/out

help:
	@sed -n '/^#/!q; s/^# \{0,1\}//p' Makefile

$(SINGLE): build/%: %.c build/lernazhup.h $(ARCHIVE) $(TOOLS)
	@$(CC) $(CFLAGS) -Ibuild $< $(ARCHIVE) -o $@

build/speed: speed.c handing_push.c $(TIMED:%=%.c) measure/baselines.h build/lernazhup.h $(ARCHIVE) $(TOOLS)
	@$(CC) $(CFLAGS) -Ibuild -DOWN_POPCOUNT -c measure/usual_read.c -o build/usual-own.o
	@$(CC) $(CFLAGS) -Ibuild $(filter %.c,$^) build/usual-own.o $(ARCHIVE) -o $@

build/compare: $(COMPARED:%=%.c) $(TIMED:%=%.c) $(wildcard comparison/*.h measure/*.h) build/lernazhup.h $(ARCHIVE) $(TOOLS)
	@flags=$$(tools/sanitizer-flags) && \
	$(CC) $(CFLAGS) -Ibuild -Imeasure -g $$flags $(filter %.c,$^) $(ARCHIVE) -o $@
