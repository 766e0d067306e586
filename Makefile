# make            build/libhendovita.a, build/pricecheck and build/dayreport, proved, and build/ask
# make demo       pricecheck on the example questions
# make check      the host tests: library and programs against an independent judge
# make bench      library and programs against plain C written for speed
# make install    header, archive, pkg-config file, pricecheck, dayreport and ask below PREFIX

PREFIX = /usr/local
DESTDIR =
VERSION = 2.1.3

CFLAGS = -O2
STRICT = -std=c11 -Wall -Wextra -Wpedantic -Wconversion -Werror
LIBRARY = build/libhendovita.a
PROGRAMS = build/pricecheck build/dayreport
HEADER = include/hendovita.h
RATTLE = crates.txt $(shell find crates -name out -prune -o \( -name '*.rt' -o -name '*.antt' \) -print)
# What rt makes of them: an archive of the batch, one of the other calls, and the programs.
ARCHIVES = crates/batch_c/out/libbatch_c.a crates/interface/out/libinterface.a
PROVED = crates/pricecheck/out/pricecheck crates/dayreport/out/dayreport
PLAIN = $(wildcard host/plain/*.c host/draw/*.c)
PLAIN_HEADERS = $(wildcard host/plain/*.h host/draw/*.h)
TESTS = $(wildcard host/tests/*.c)
ASK = $(wildcard tools/*.c)
BENCH = $(addprefix bench/, bench.c programs.c days.c prepared.c mixes.c quick.c quick_day.c)
LINES = build/plaincheck build/plainreport build/moves build/drawn build/dribble build/breaks build/memory
QUICK = build/quickcheck build/quickreport
INCLUDES = -Iinclude -Ihost/plain -Ihost/draw

all: $(LIBRARY) $(PROGRAMS) build/ask

# The batch and the other calls are an object each.
$(LIBRARY): $(ARCHIVES) Makefile
	mkdir -p build
	rm -f build/*.o $@
	cd build && for archive in $(ARCHIVES); do ar x ../$$archive || exit; done
	ar rcs $@ build/batch_c.o build/interface.o

build/pricecheck: crates/pricecheck/out/pricecheck
build/dayreport: crates/dayreport/out/dayreport
$(PROGRAMS): Makefile
	mkdir -p build
	cp $(filter crates/%, $^) $@

# Each command proves first what it builds, where that is not proved yet.
$(ARCHIVES): $(RATTLE)
	@echo 'proving and building $@ ..'
	cd $(dir $(@D)) && rt lib
	touch $@

# A program is run too, on no questions.
$(PROVED): $(RATTLE)
	@echo 'proving and building $@ ..'
	cd $(dir $(@D)) && rt run </dev/null
	touch $@

build/ask: $(LIBRARY) $(HEADER) $(ASK) $(wildcard tools/*.h)
	$(CC) $(STRICT) $(CFLAGS) -Iinclude $(ASK) $(LIBRARY) -o $@

build/host-tests: $(LIBRARY) $(HEADER) $(TESTS) $(PLAIN) $(PLAIN_HEADERS) $(wildcard host/tests/*.h)
	$(CC) $(STRICT) $(CFLAGS) $(INCLUDES) $(TESTS) $(PLAIN) $(LIBRARY) -o $@

$(LINES): build/%: host/lines/%.c $(PLAIN) $(PLAIN_HEADERS)
	mkdir -p build
	$(CC) $(STRICT) $(CFLAGS) $(INCLUDES) $< $(PLAIN) -o $@

build/gateway build/feed build/slider: build/%: examples/%.c $(LIBRARY) $(HEADER)
	$(CC) $(STRICT) $(CFLAGS) -Iinclude $< $(LIBRARY) -o $@

build/bench: $(LIBRARY) $(HEADER) $(BENCH) $(wildcard bench/*.h) $(PLAIN) $(PLAIN_HEADERS)
	$(CC) $(STRICT) -O3 $(INCLUDES) $(BENCH) $(PLAIN) $(LIBRARY) -o $@

build/asked: bench/asked.c bench/mixes.c bench/mixes.h $(PLAIN) $(PLAIN_HEADERS)
	mkdir -p build
	$(CC) $(STRICT) $(CFLAGS) $(INCLUDES) bench/asked.c bench/mixes.c $(PLAIN) -o $@

build/judged: bench/judged.c bench/quick.c bench/quick.h bench/quick_parts.h $(LIBRARY) $(HEADER)
	$(CC) $(STRICT) -O3 -Iinclude bench/judged.c bench/quick.c $(LIBRARY) -o $@

$(QUICK): build/%: bench/%.c bench/quick.c $(wildcard bench/quick*.h)
	mkdir -p build
	$(CC) $(STRICT) -O3 $< bench/quick.c -o $@

check: all build/host-tests build/gateway build/feed build/slider $(LINES) build/bench $(QUICK) build/asked build/judged
	host/run

demo: all
	build/ask write examples/questions.txt | build/pricecheck

bench: all build/bench $(QUICK) build/asked build/judged
	build/bench
	bench/instructions

install: all
	mkdir -p "$(DESTDIR)$(PREFIX)/bin" "$(DESTDIR)$(PREFIX)/include" "$(DESTDIR)$(PREFIX)/lib/pkgconfig"
	install -m 755 $(PROGRAMS) build/ask "$(DESTDIR)$(PREFIX)/bin"
	install -m 644 $(HEADER) "$(DESTDIR)$(PREFIX)/include/hendovita.h"
	install -m 644 $(LIBRARY) "$(DESTDIR)$(PREFIX)/lib/libhendovita.a"
	sed 's|@PREFIX@|$(PREFIX)|; s|@VERSION@|$(VERSION)|' include/hendovita.pc.in > build/hendovita.pc
	install -m 644 build/hendovita.pc "$(DESTDIR)$(PREFIX)/lib/pkgconfig/hendovita.pc"

clean:
	rm -rf build

.DELETE_ON_ERROR:
.NOTPARALLEL:
.PHONY: all check demo bench install clean
