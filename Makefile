# make          tries a program in seconds, proves the crates, runs the program, builds the archive for C and the example, and
#               runs that on a sample
# make test     runs all tests; the last line counts them
# make bench    prints speeds beside a plain scanner's and Rust's
# make tables   prints the tables of characters and of phrases anew (needs rustc, Debian's librust-unicode-categories-dev, python3)
# make vectors  prints tests/vectors anew (needs python3)

build := target/test
archive := target/staticlib/libventpeeler.a
crate_files := crates.txt $(shell find crates -path 'crates/*/out' -prune -o -type f -print)
programs := target/bin/listing target/bin/tight_text target/bin/filling
rust := rustc --edition 2021 -O
warnings := -Wall -Wextra -Wpedantic -Werror
c := cc -std=c99 -O2 $(warnings) -Iinclude
example := examples/search.c examples/filling.c
categories := /usr/share/cargo/registry/unicode_categories-0.1.1/src/lib.rs

.PHONY: all test bench tables vectors

# what is tried first is not proved yet
all:
	@mkdir -p $(build)
	cd crates/filling && rt try < stdin > ../../$(build)/tried && cmp ../../$(build)/tried stdout
	rt all check
	@$(MAKE) --silent target/bin/filling $(build)/search
	@printf '\nthe search `? $$2 ? ?2`, filled by target/bin/filling from a sheet with 7 and 8: %s\n' \
		"$$(target/bin/filling < crates/filling/stdin)"
	@printf '\nsamples/slab.sql, with values for its placeholders:\n\n'
	@$(build)/search samples/slab.sql "'L2'" 35 "'2026-11-16'" "'2026-11-17'" 20

test:
	@tests/run

bench: $(build)/bench_unicode $(build)/bench_reading $(build)/bench_fill $(build)/bench_rattle $(build)/bench_slow
	$(build)/bench_unicode
	@echo
	$(build)/bench_reading
	@echo
	$(build)/bench_fill
	@echo
	$(build)/bench_rattle
	@echo
	$(build)/bench_slow

tables: $(build)/tables
	$(build)/tables crates/characters
	$(build)/tables sweep > crates/sweep/stdout
	python3 tools/phrases.py phrases > $(build)/phrases.rt
	cp $(build)/phrases.rt crates/reserved/src
	for file in $$(python3 tools/phrase_proofs.py files); do \
	    python3 tools/phrase_proofs.py $$file > crates/reserved/proofs/$$file.antt; \
	done
	cd crates/characters && rt fmt
	cd crates/reserved && rt fmt

vectors: $(patsubst tools/%_vectors.py,target/vectors/%,$(wildcard tools/*_vectors.py))
	for file in $^; do cp $$file tests/vectors/$${file##*/}.txt; done

target/vectors/%: tools/%_vectors.py $(wildcard tools/*.py) crates/sweep/stdout
	@mkdir -p target/vectors
	python3 $< > $@.part
	mv $@.part $@

# an archive is proved and built anew where any file of a crate is younger; it is copied, since rt ci empties a crate's out/
target/staticlib/lib%.a: $(crate_files)
	@mkdir -p target/staticlib
	@(cd crates/$* && rt lib) > target/staticlib/$*.log 2>&1 || { cat target/staticlib/$*.log; exit 1; }
	@cp crates/$*/out/lib$*.a $@

# a program is proved and linked anew where any file of a crate is younger; rt run runs it besides, here on no input
target/bin/%: $(crate_files)
	@mkdir -p target/bin
	@(cd crates/$* && rt run < /dev/null) > target/$*.log 2>&1 || { cat target/$*.log; exit 1; }
	@cp crates/$*/out/$* $@

$(build)/bench_unicode: bench/unicode.rs bench/timing.rs tests/unicode/unicode.rs target/staticlib/libunicode_exports.a
	@mkdir -p $(build)
	$(rust) -o $@ $< -L target/staticlib -l static=unicode_exports

$(build)/utf8: tests/unicode/utf8.rs tests/unicode/unicode.rs target/staticlib/libunicode_exports.a
	@mkdir -p $(build)
	$(rust) -o $@ $< -L target/staticlib -l static=unicode_exports

$(build)/bench_rattle: bench/rattle.rs bench/timing.rs bench/growing.rs bench/searches.rs tests/calls.rs tests/rattle_calls.rs tests/random/texts.rs $(archive) target/staticlib/libcalls_exports.a
	@mkdir -p $(build)
	$(rust) -o $@ $< -L target/staticlib -l static=ventpeeler -l static=calls_exports

$(build)/bench_%: bench/%.rs bench/timing.rs bench/growing.rs bench/searches.rs bench/scanner.rs bench/scanner.c tests/calls.rs tests/random/texts.rs $(archive)
	@mkdir -p $(build)
	$(c) -c -o $(build)/scanner.o bench/scanner.c
	rm -f $(build)/libscanner.a
	ar rc $(build)/libscanner.a $(build)/scanner.o
	$(rust) -o $@ $< -L $(build) -l static=scanner -L target/staticlib -l static=ventpeeler

replay_parts := tests/replaying.rs tests/vector_file.rs tests/calls.rs tests/random/lists.rs

$(build)/replay_%: tests/%/replay.rs $(replay_parts) $(archive)
	@mkdir -p $(build)
	$(rust) -o $@ $< -L target/staticlib -l static=ventpeeler

$(build)/search: $(wildcard examples/*) include/ventpeeler.h $(archive)
	@mkdir -p $(build)
	$(c) -o $@ $(example) $(archive)

c_parts := tests/c/checks.h tests/c/lent.h include/ventpeeler.h $(archive)

$(build)/c_%: tests/c/%.c $(c_parts)
	@mkdir -p $(build)
	$(c) -o $@ $< $(archive)

$(build)/sanitized_%: tests/c/%.c $(c_parts)
	@mkdir -p $(build)
	$(c) -g -fsanitize=address,undefined -fno-sanitize-recover=all -o $@ $< $(archive)

$(build)/cxx_%: tests/c/%.c $(c_parts)
	@mkdir -p $(build)
	c++ -std=c++11 -O2 $(warnings) -Iinclude -o $@ -x c++ $< -x none $(archive)

$(build)/random_%: tests/random/%.rs $(wildcard tests/random/*.rs) tests/calls.rs $(archive)
	@mkdir -p $(build)
	$(rust) -o $@ $< -L target/staticlib -l static=ventpeeler

$(build)/random_cut: tests/random/cut.rs $(wildcard tests/random/*.rs) tests/cut/places.rs tests/calls.rs tests/rattle_calls.rs $(archive) target/staticlib/libcalls_exports.a
	@mkdir -p $(build)
	$(rust) -o $@ $< -L target/staticlib -l static=ventpeeler -l static=calls_exports

$(build)/stack_%: tests/stack/%.rs $(wildcard tests/stack/*) tests/calls.rs tests/random/texts.rs include/ventpeeler.h $(archive)
	@mkdir -p $(build)
	$(c) -c -o $(build)/painted.o tests/stack/painted.c
	$(c) -c -o $(build)/painted_fill.o tests/stack/painted_fill.c
	rm -f $(build)/libpainted.a
	ar rc $(build)/libpainted.a $(build)/painted.o $(build)/painted_fill.o
	$(rust) -o $@ $< -L $(build) -l static=painted -L target/staticlib -l static=ventpeeler

$(build)/replay_lookup $(build)/replay_cut: $(build)/replay_%: tests/%/replay.rs tests/cut/places.rs $(replay_parts) tests/rattle_calls.rs target/staticlib/libcalls_exports.a
	@mkdir -p $(build)
	$(rust) -o $@ $< -L target/staticlib -l static=calls_exports

$(build)/programs_agreement: tests/programs/agreement.rs $(wildcard tests/random/*.rs) tests/calls.rs $(archive) | $(programs)
	@mkdir -p $(build)
	$(rust) -o $@ $< -L target/staticlib -l static=ventpeeler

# the Rust's src/params.rs is the file that VENTPEELER_PARAMS_RS names, which may be another each time; tests/params/run finds it
.PHONY: $(build)/params_get
$(build)/params_get: $(wildcard tests/params/*.rs tests/random/*.rs) tests/calls.rs tests/rattle_calls.rs $(archive) target/staticlib/libcalls_exports.a
	@mkdir -p $(build)
	$(rust) -o $@ tests/params/get.rs -L target/staticlib -l static=ventpeeler -l static=calls_exports

# unicode_categories is older than its compiler, which warns of that
$(build)/libunicode_categories.rlib: $(categories)
	@mkdir -p $(build)
	rustc --edition 2018 -O --cap-lints allow --crate-type rlib --crate-name unicode_categories -o $@ $<

$(build)/tables: tools/tables.rs $(build)/libunicode_categories.rlib
	$(rust) -o $@ $< --extern unicode_categories=$(build)/libunicode_categories.rlib
