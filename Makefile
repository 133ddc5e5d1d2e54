.PHONY: help demo test archive dist bench differential damage annex digests figure vectors clauses same-kit

CC99 = gcc -std=c99 -Wall -Wextra -Werror -pedantic -O2 -I include
SECOND = CARGO_TARGET_DIR=target/second cargo run --quiet --release --offline --manifest-path tests/second/Cargo.toml --bin
# The programs and the archive are for every x86-64 processor.
RT_FOR_ALL = --cpu=x86-64
VERSION = $(shell sed -n 's/^\#define WOM_VERSION_STRING "\(.*\)"$$/\1/p' include/wom.h)
DIST = wom-$(VERSION)

# `make` alone prints this list, of the texts after `##`, and runs nothing.
help: ## this list
	@awk -F ':.*## ' '/^[a-z]+:.*## / { printf "make %-13s %s\n", $$1, $$2 }' Makefile

# A page's life in a logger and the page that it chooses in a block, then the listing and the gain sheet of the pages that it leaves, a page's
# life on chips of both page sizes, the file that carries the logger's seven whole pages away, and the same pages at the office, read from
# that file.
demo: archive ## proves the library, and shows a page's life on a model of the part: a minute, and what is still to be proved
	@echo 'proving and compiling the programs listing and gain (target/listing.log, target/gain.log)'
	@mkdir -p target/bin target/demo
	@for name in listing gain; do \
		rm -f target/bin/$$name; \
		(cd crates/$$name && rt run $(RT_FOR_ALL) </dev/null) >target/$$name.log 2>&1 || { cat target/$$name.log; exit 1; }; \
		cp crates/$$name/out/$$name target/bin || exit 1; \
	done
	$(CC99) -o target/demo/logger examples/logger.c target/staticlib/libwom.a
	$(CC99) -o target/demo/two_chips examples/two_chips.c target/staticlib/libwom.a
	$(CC99) -o target/demo/carry examples/carry.c target/staticlib/libwom.a
	$(CC99) -o target/demo/office examples/office.c target/staticlib/libwom.a
	@echo
	@target/demo/logger target/demo/pages.bin
	@printf '\nThe listing of target/demo/pages.bin (target/bin/listing reads pages from its standard input):\n'
	@target/bin/listing <target/demo/pages.bin
	@printf '\nThe gain sheet of the same pages (target/bin/gain):\n'
	@target/bin/gain <target/demo/pages.bin
	@echo
	@target/demo/two_chips
	@echo
	@target/demo/carry 0x12345678 target/demo/pages.bin target/demo/lift.bin
	@echo
	@target/demo/office target/demo/lift.bin target/demo/office.bin
	@head -c 1792 target/demo/pages.bin | cmp - target/demo/office.bin
	@echo '   They are the 7 whole pages of target/demo/pages.bin, byte for byte.'
	@printf '\nThe pages at the office, listed:\n'
	@target/bin/listing <target/demo/office.bin

test: ## the gate: proves every crate, tries the must-fail edits, runs the tests
	.ci/run

# The old archive goes first, so that none is left where this fails.
archive: ## proves the library and writes target/staticlib/libwom.a, for C programs with include/wom.h: a minute, and what is still to be proved
	@mkdir -p target/staticlib
	@rm -f target/staticlib/libwom.a crates/wom_c/out/libwom_c.a
	@echo 'proving and compiling the library (target/archive.log)'
	@(cd crates/wom_c && rt lib $(RT_FOR_ALL)) >target/archive.log 2>&1 || { cat target/archive.log; exit 1; }
	@cp crates/wom_c/out/libwom_c.a target/staticlib/libwom.a

# The annex speaks of one kit: what hands the annex on is refused with another.
same-kit:
	@tests/digests kit || { rm -rf target/$(DIST) target/$(DIST).tar.gz target/annex.pdf; exit 1; }

# The same commit gives the same file; where the annex has other digests, none.
dist: same-kit archive ## packs archive, header, C-API, annex and changes, with their digests, as target/wom-VERSION.tar.gz
	@rm -rf target/$(DIST) target/$(DIST).tar.gz
	@tests/digests check
	@mkdir target/$(DIST)
	cp target/staticlib/libwom.a include/wom.h docs/C-API.md docs/ANNEX.md docs/word-stages.svg docs/codes.svg CHANGELOG.md target/$(DIST)
	cd target/$(DIST) && sha256sum * >../SHA256SUMS && mv ../SHA256SUMS .
	tar -C target --sort=name --owner=0 --group=0 --numeric-owner --mode=u=rwX,go=rX --mtime=@$$(git log -1 --format=%ct) -cf target/$(DIST).tar $(DIST)
	gzip -nf target/$(DIST).tar
	@sha256sum target/$(DIST).tar.gz

bench: archive ## instructions per call, beside plain C, by valgrind: two minutes
	bench/run

# A longer comparison: make differential SEED=7 CASES=20000000
SEED = 2
CASES = 2000000
differential: archive ## compares the archive with the independent program: SEED=2 CASES=2000000, a minute or two
	$(SECOND) differential -- run $(SEED) $(CASES)

damage: archive ## counts what the readers notice of one changed cell, on 200 pages: half a minute
	@mkdir -p target/demo
	$(CC99) -o target/demo/damage tests/damage.c target/staticlib/libwom.a
	@target/demo/damage

# Debian packages: cmark-gfm weasyprint fonts-dejavu-core
annex: same-kit ## prints the annex to target/annex.pdf
	docs/print target/annex.pdf

# The archive must be the one that this commit's source gives.
digests: archive ## renews the kit and the digests in the annex's head
	tests/digests renew

figure: archive ## draws the documents' two figures from the library's answers
	mkdir -p target/demo
	$(CC99) -o target/demo/word_stages examples/word_stages.c target/staticlib/libwom.a
	$(CC99) -o target/demo/inspect_plot examples/inspect_plot.c target/staticlib/libwom.a
	target/demo/word_stages >target/demo/word-stages.svg
	target/demo/inspect_plot >target/demo/codes.svg
	cp target/demo/word-stages.svg target/demo/codes.svg docs

vectors: ## makes the files of the programs vectors, listing and gain, by the independent program
	$(SECOND) generate -- vectors crates/vectors
	$(SECOND) generate -- listing crates/listing
	$(SECOND) generate -- sheet crates/gain

# tests/run compares the crates with both lists.
clauses: ## makes the lists of every claim's clauses and of every function's contract, tests/clauses and tests/contracts
	mkdir -p target
	tests/list-clauses crates >target/clauses
	tests/list-contracts crates >target/contracts
	cp target/clauses target/contracts tests
