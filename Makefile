# make test runs every check; its last line is that of `rt ci`. make try and make run play a tape; make bench measures.
# What rt prints goes to a log under build/; standard error gets a line for each crate.
SHELL := /bin/bash
.SHELLFLAGS := -euo pipefail -c
.PHONY: test proofs models programs try run host random random-calls stopped rules plants rule-plants yardstick notation citations tapes \
  test-slow bench late pieces venues spreadsheet days day-plants drill panel random-panel test-memory install

# where rt leaves the executable of a program
executable = crates/$(1)/out/$(1)
PRINTER ?= $(call executable,tape_printer)
WRITER ?= $(call executable,tape_writer)
PLAYER ?= $(call executable,book_player)
JOINER ?= $(call executable,venue_joiner)
IMPORTER ?= $(call executable,csv_import)
DAY_SHEET ?= $(call executable,day_sheet)
DRILL ?= $(call executable,quoting_drill)
EXECUTABLES := $(foreach name,tape_printer tape_writer book_player venue_joiner csv_import day_sheet quoting_drill,$(call executable,$(name)))
TAPE ?= tapes/worked.tape
SEED ?= 1
TAPES ?= 10000
LISTS ?= 10000
PAIRS ?= 1000
DAYS ?= 1000
GAMES ?= 600
PANEL_TAPES ?= 2000
PREFIX ?= /usr/local
RUNS ?= 9
FILES ?= 300
PLANTS := equals-stay earlier-stands oldest window kept misprint upper pair-first nine-first pair-end nine-at-eight \
  desk-two-first watch2-by-one
BOTH_PLANTS := five-before-thirteen both-leaves-quote both-cells-on-refusal look-before both-counts
CALL_PLANTS := renamed torn-first past-memory early live-lower overwritten retired-lower fourteen-first live-zeros upper-free \
  pair-first nine-first pair-end due-equal due-cells blind-look audit-pair preview-settles preview-held preview-head \
  equals-stay earlier-stands nine-at-eight shares-free thirteen-fits desk-two-first watch2-by-one desk-left $(BOTH_PLANTS)
RULE_PLANTS := upper-free pair-end due-equal preview-settles preview-held preview-head equals-stay earlier-stands \
  watch2-by-one $(BOTH_PLANTS)
LATE_PLANTS := unshifted list-early past-early changes-early pair-early rows-early other-directions
VENUE_PLANTS := second-on-equal fifteen-before-seven sixteen-before-fifteen midnight equal-refused second-refuses-first \
  good-tape-goes-on look-behind quote-misplaced ends-with-one other-moved
SHEET_PLANTS := lf-cuts leading-zero above empty-rest last-misfit fewer-columns
DAY_PLANTS := equals-stay earlier-stands halves-apart from-zero longest-refused columns-first
DRILL_PLANTS := some-reply last-place equals-stay four-first pass-ends list-of-memory
# the crates, static libraries each, whose exported functions are the book's library for C; and that of the screen's two functions
BOOK_CRATES := host_frames host_looks host_quotes host_both host_watches host_plays
BOOK_LIBRARY := build/libbest_quote_book.a
archive = crates/$(1)/out/lib$(1).a
BOOK_ARCHIVES := $(foreach name,$(BOOK_CRATES),$(call archive,$(name)))
SCREEN_LIBRARY := $(call archive,host)
CC := gcc -std=c11 -O2 -Wall -Wextra -Werror -Ihost
SANITIZED := -g -fsanitize=address,undefined -fno-sanitize-recover=all
SAMPLES := $(basename $(wildcard tapes/*.txt))
# of a command, the program that is made here; another's stands already
made = $(filter crates/% build/%,$(firstword $(1)))
# what a proof reads, but nothing that rt keeps
SOURCES := crates.txt $(shell find crates -name out -prune -o -type f '(' -name '*.rt' -o -name '*.antt' ')' -print)
# one run of rt at a time
ALONE := flock $(CURDIR)/build/rt.lock
# a test leaves its core to a check that wants it
IDLE := nice -n 19
RUSTC := env -u MAKEFLAGS -u MFLAGS $(IDLE) rustc --edition 2021 -O -D warnings

test: citations
	@$(MAKE) --no-print-directory -j2 proofs models
	@$(MAKE) --no-print-directory -j2 host random random-calls stopped late plants pieces notation venues spreadsheet days day-plants drill random-panel
	@tools/dearest.sh build/ci.txt
	@tail -n 1 build/ci.txt | grep -Ex '[0-9]+ passed, 0 failed'

# every crate from nothing, every must-fail edit, every program as both compilers make it; an edit that cannot be applied or
# read fails here, and not in rt ci
proofs: | build
	@touch build/ci_begun
	@$(ALONE) rt ci 2>&1 | tools/progress.sh build/ci.txt
	@tools/edits_are_good.sh build/ci.txt
	@mv build/ci_begun build/ci_passed

# beside the first crates, on what they leave idle: the tests built, and the models held against small tapes and themselves
models: build/plain_model build/random_calls build/late_book build/notation rules rule-plants build/venues build/spreadsheet \
  build/day_sheets build/drill

# the printer on the worked tape before anything is proved, by the toolchain's own trial, with its print
try: | build
	@(cd crates/tape_printer && rt try < stdin 2> ../../build/try.txt) > build/try_print.txt || { cat build/try.txt; exit 1; }
	@cmp build/try_print.txt crates/tape_printer/stdout
	@cat build/try_print.txt
	@tail -n 1 build/try.txt

run: $(PRINTER)
	@$(PRINTER) < $(TAPE)

# both libraries for C, the worked host, the refused calls and the panel over them; what the worked host prints is kept
host: build/worked_host build/refused_calls panel
	@build/worked_host > build/worked_host.txt
	@tail -n 1 build/worked_host.txt
	@build/refused_calls

# the panel prints each sample tape as the printer does, by the calls and by the library's player, with gcc's sanitizers too
panel: build/panel build/panel_sanitized build/refused_calls_sanitized $(PRINTER)
	@for sample in $(SAMPLES); do \
	    for panel in build/panel 'build/panel --play' build/panel_sanitized 'build/panel_sanitized --play'; do \
	        $$panel < $$sample.tape | cmp - <($(PRINTER) < $$sample.tape); \
	    done; \
	done
	@build/refused_calls_sanitized > /dev/null

$(SCREEN_LIBRARY) $(BOOK_ARCHIVES) &: $(SOURCES) | build
	@for crate in host $(BOOK_CRATES); do $(ALONE) tools/static_library.sh $$crate; done

# one library of the functions that several crates export: each archive has one object, whose other names are its own
$(BOOK_LIBRARY): $(BOOK_ARCHIVES) | build
	@rm -f $@
	@{ echo 'create $@'; printf 'addlib %s\n' $^; echo save; echo end; } | ar -M

build/worked_host: host/worked_host.c host/best_quote.h $(SCREEN_LIBRARY) | build
	@$(CC) -o $@ $< $(SCREEN_LIBRARY)

build/%: host/%.c host/best_quote_book.h $(BOOK_LIBRARY)
	@$(CC) -o $@ $< $(BOOK_LIBRARY)

build/%_sanitized: host/%.c host/best_quote_book.h $(BOOK_LIBRARY)
	@$(CC) $(SANITIZED) -o $@ $< $(BOOK_LIBRARY)

# both libraries and their manuals, and what pkg-config says of them
install: $(SCREEN_LIBRARY) $(BOOK_LIBRARY)
	@install -d $(PREFIX)/lib/pkgconfig $(PREFIX)/include
	@install -m 644 $(SCREEN_LIBRARY) $(PREFIX)/lib/libbest_quote.a
	@install -m 644 $(BOOK_LIBRARY) $(PREFIX)/lib/
	@install -m 644 host/best_quote.h host/best_quote_book.h $(PREFIX)/include/
	@sed 's,@PREFIX@,$(abspath $(PREFIX)),' host/best_quote_book.pc.in > $(PREFIX)/lib/pkgconfig/best_quote_book.pc

# the printer, a command with its arguments, against the plain model on random and damaged tapes
random: build/plain_model $(call made,$(PRINTER))
	@build/plain_model '$(PRINTER)' $(SEED) $(TAPES)

# the book player, likewise, against the plain model of the calls, on random lists of calls and any tables
random-calls: build/random_calls $(call made,$(PLAYER))
	@build/random_calls '$(PLAYER)' $(SEED) $(LISTS)

# the book player with an output that fails and an input that stays open, silent
stopped: $(call made,$(PLAYER))
	@tests/stopped.sh $(PLAYER)

# a book switched on late against one on since the morning, both played by the printer
late: build/late_book $(PRINTER)
	@build/late_book $(PRINTER) $(SEED) $(PAIRS)

# the drill against a plain model: every way of choosing in small games, and random games
drill: build/drill $(DRILL)
	@build/drill $(DRILL) $(SEED) $(GAMES)

# the panel in C against the plain model, on fewer tapes: by the calls, and by the library's player
random-panel: build/plain_model build/panel
	@build/plain_model build/panel $(SEED) $(PANEL_TAPES)
	@build/plain_model 'build/panel --play' $(SEED) $(PANEL_TAPES)

# the same with gcc's sanitizers, and the samples under valgrind: a minute, and no part of make test
test-memory: build/plain_model build/panel build/panel_sanitized build/refused_calls
	@build/plain_model build/panel_sanitized $(SEED) 500
	@for sample in $(SAMPLES); do \
	    for panel in build/panel 'build/panel --play'; do valgrind -q --error-exitcode=1 $$panel < $$sample.tape > /dev/null; done; \
	done
	@valgrind -q --error-exitcode=1 build/refused_calls

# the audit's plain rules, lists and what is due, as that model has them, against every tape of small settings; its
# previews against its quotes, a quote and look in one against the two; what a desk sees of a list against what it sees of
# one that differs in all else
rules: build/random_calls
	@$(IDLE) build/random_calls --rules

# a model with a bug planted must not agree with the printer, the player or the tapes
plants: $(PLANTS:%=plant-in-tapes-%) $(CALL_PLANTS:%=plant-in-calls-%) $(LATE_PLANTS:%=plant-in-late-%) plant-in-pieces \
  $(VENUE_PLANTS:%=plant-in-venues-%) $(SHEET_PLANTS:%=plant-in-sheets-%) $(DRILL_PLANTS:%=plant-in-drill-%)

rule-plants: $(RULE_PLANTS:%=plant-in-rules-%)

plant-in-tapes-%: build/plain_model $(PRINTER)
	@tests/planted.sh tapes-$* 'the prints differ' build/plain_model --plant $* $(PRINTER) $(SEED) 1000

plant-in-calls-%: build/random_calls $(PLAYER)
	@tests/planted.sh calls-$* 'the answers differ' build/random_calls --plant $* $(PLAYER) $(SEED) 1000

plant-in-late-%: build/late_book $(PRINTER)
	@tests/planted.sh late-$* 'the books differ' build/late_book --plant $* $(PRINTER) $(SEED) $(PAIRS)

plant-in-pieces: build/pieces $(PRINTER) $(WRITER)
	@tests/planted.sh pieces 'the prints differ' build/pieces --plant $(PRINTER) $(WRITER) $(SAMPLES:%=%.tape)

plant-in-venues-%: build/venues $(JOINER)
	@tests/planted.sh venues-$* 'the joined tapes differ' build/venues --plant $* $(JOINER) $(SEED)

plant-in-drill-%: build/drill $(DRILL)
	@tests/planted.sh drill-$* 'the answers differ' build/drill --plant $* $(DRILL) $(SEED) $(GAMES)

plant-in-rules-%: build/random_calls
	@$(IDLE) tests/planted.sh rules-$* 'the rules differ' build/random_calls --plant $* --rules

plant-in-sheets-%: build/spreadsheet $(IMPORTER)
	@tests/planted.sh sheets-$* 'the imports differ' build/spreadsheet --plant $* $(IMPORTER) $(SEED) 100

# the day sheet against a plain model of it, and against the printer's look where the day fits a book
days: build/day_sheets $(DAY_SHEET) $(PRINTER)
	@build/day_sheets $(DAY_SHEET) $(PRINTER) $(SEED) $(DAYS)

day-plants: $(DAY_PLANTS:%=plant-in-days-%)

plant-in-days-%: build/day_sheets $(DAY_SHEET) $(PRINTER)
	@tests/planted.sh days-$* 'the lines differ' build/day_sheets --plant $* $(DAY_SHEET) $(PRINTER) $(SEED) 200

# the yardstick of make bench against the plain model, in each of its ways, and its quote on any tables against that of the calls
yardstick: build/plain_model build/yardstick build/any_tables
	@for way in '' ' --judged' ' --slides' ' --any'; do build/plain_model "build/yardstick$$way" $(SEED) $(TAPES); done
	@build/any_tables $(SEED)

# the tape writer against a plain reading of the notation, and on the notation of each sample tape
notation: build/notation $(WRITER)
	@build/notation $(WRITER) $(SEED)
	@for sample in $(SAMPLES); do $(WRITER) < $$sample.txt | cmp - $$sample.tape; done

# the printer on each sample, cut at every byte, and the writer, in pieces of every size from 1 to 64 bytes, and about as long
# as their buffers
pieces: build/pieces $(PRINTER) $(WRITER)
	@build/pieces $(PRINTER) $(WRITER) $(SAMPLES:%=%.tape) $(SAMPLES:%=%.txt)

# the venue joiner against a plain model of the join, on sound, damaged and long tapes
venues: build/venues $(JOINER)
	@build/venues $(JOINER) $(SEED)

# the importer against a plain reading of comma-separated quotes, on random files and on good ones with each byte changed
spreadsheet: build/spreadsheet $(IMPORTER)
	@build/spreadsheet $(IMPORTER) $(SEED) $(FILES)

# every path that the texts cite, and every name that docs/PROOFS.md cites
citations:
	@tests/citations.sh

# the sample tapes, from their notation
tapes: $(WRITER)
	@for sample in $(SAMPLES); do $(WRITER) < $$sample.txt > $$sample.tape; done

# the longest tape and one quote more
test-slow: build/full_tape $(PRINTER)
	@build/full_tape $(PRINTER) $(SEED)

bench: build/bench build/yardstick build/plain_model build/make_tape build/join build/plain_join $(PRINTER) $(JOINER) \
  build/imports build/csv_yardstick $(IMPORTER) build/day_bench build/day_yardstick $(DAY_SHEET) build/drill_time $(DRILL) \
  build/panel
	@build/bench $(PRINTER) $(RUNS)
	@build/join $(JOINER) $(RUNS)
	@build/imports $(IMPORTER) $(RUNS)
	@build/day_bench $(DAY_SHEET) $(RUNS)
	@build/drill_time $(DRILL)

# each program's executable
programs: $(EXECUTABLES)

# rt ci leaves each program's executable; where it has not run since a change, rt run proves, builds and runs the program, here on
# no input and whatever its status
$(EXECUTABLES): $(SOURCES) | build
	@rm -f $@
	@(cd crates/$(@F) && $(ALONE) rt run < /dev/null 2>&1 > /dev/null || true) | tools/progress.sh build/$(@F).txt
	@test -x $@

build/%: tests/%.rs $(wildcard tests/*.rs) | build
	@$(RUSTC) -o $@ $<

build/%: bench/%.rs $(wildcard bench/*.rs tests/*.rs) | build
	@$(RUSTC) -o $@ $<

build:
	@mkdir -p build
