# Two commands do all the set-up: `make demo` and `make test`. Both need the Rattle kit's `rt`; the tests also need a C and C++ compiler and cargo.
.PHONY: demo test check library programs gathered test-c test-model test-rust test-programs test-install exhaustive bench install install-files uninstall fmt

VERSION = 0.1.0
PREFIX = /usr/local
PROGRAMS = list list_fields list_labels explain summary

# Lists the example sheet.
demo: programs
	@./target/bin/list < examples/flight.sheet

# The gate: the kinds of files, two wrong programs for each public function; then `rt ci` over the whole checkout as it stands: the layout, every proof, every wrong program, every program and test;
# then the model in Rust, the library from C, C++ and Rust beside the model, the programs where something goes wrong, and the installation. Its last line is rt ci's own count.
# rt ci passes an edit that no longer applies: here that fails. The programs that are tested are those that rt ci has built and run.
test: SHELL := /bin/bash
test:
	tests/repository/run
	cmp examples/flight.sheet crates/test_sheets/data/flight/0000.bin
	cmp examples/flight.txt crates/test_sheets/data/flight/0000.txt
	@set -o pipefail; mkdir -p target && rt ci 2>&1 | tee target/ci.log
	@grep -q '^rt: ok; ' target/ci.log || { echo 'test: rt ci does not say that all is well' >&2; exit 1; }
	@! grep -E '^rt: ok; .*, [1-9][0-9]* bad\b' target/ci.log >&2 || { echo 'test: a wrong program of must-fail/ cannot be tried as it stands' >&2; exit 1; }
	@$(MAKE) --no-print-directory gathered test-model test-c test-rust
	tests/programs/run
	tests/install/run
	@tail -n 1 target/ci.log

# The daily loop: what has changed is proved again, the programs and the C and Rust tests are run; no wrong program is tried, and the layout is not looked at.
check:
	tests/repository/run
	rt all check
	@$(MAKE) --no-print-directory test-model test-c test-rust test-programs test-install

# The programs that are installed: target/bin/list, target/bin/list_fields, target/bin/list_labels, target/bin/explain and target/bin/summary.
# A run builds what is proved, unless nothing has changed; here it has no input and no argument.
programs:
	@mkdir -p target; for name in $(PROGRAMS); do echo "proving and building $$name"; \
		(cd "crates/$$name" && rt run < /dev/null > ../../target/rt.log 2>&1) || { cat target/rt.log >&2; exit 1; }; done
	@$(MAKE) --no-print-directory gathered

# The same of what is built already.
gathered:
	@mkdir -p target/bin; for name in $(PROGRAMS); do install -m 755 "crates/$$name/out/$$name" "target/bin/$$name" || exit 1; done

# The static library that include/lampcygnet.h describes: target/staticlib/libcapi.a.
library:
	@mkdir -p target/staticlib; echo 'proving and building capi'; (cd crates/capi && rt lib > ../../target/rt.log 2>&1) || { cat target/rt.log >&2; exit 1; }
	@cmp -s crates/capi/out/libcapi.a target/staticlib/libcapi.a || install -m 644 crates/capi/out/libcapi.a target/staticlib/libcapi.a

# The C tests, as C99 and as C++11, on the test vectors.
test-c: library
	tests/c/run words crates/test_words/data/words.txt crates/test_words/data/raster.txt crates/test_figures/data/figures.txt crates/test_figures/data/mls.txt crates/test_reassembly/data/joins.txt crates/test_explain/data/explain.txt
	tests/c/run sheets crates/test_sheets/data/*/*.bin crates/test_summary/data/summary.txt

# The independent model on the test vectors and on document 01's lines.
test-model:
	cd bindings/model && cargo test --offline --quiet

# The Rust crate: its examples, and the library beside the model on all words of every label, on figures and their explanations, on runs of parts, on sheets and on their summaries.
test-rust: library
	cd bindings/rust && cargo test --offline --quiet

# The library beside the model on all 2^32 words: how many get each answer.
exhaustive: library
	cd bindings/rust && cargo run --offline --release --example exhaustive

# Plain C and Rust that do the same work, tested against the model; then the times of the library beside theirs, in one run.
bench: library
	cd bench && cargo test --offline --quiet && cargo run --offline --release

# Puts the programs, the header, the library, its pkg-config file and the manual pages below PREFIX, or below DESTDIR for a package of them.
install: programs library
	@$(MAKE) --no-print-directory install-files

# The same of what is built already.
install-files:
	install -d "$(DESTDIR)$(PREFIX)/bin" "$(DESTDIR)$(PREFIX)/include" "$(DESTDIR)$(PREFIX)/lib/pkgconfig" \
		"$(DESTDIR)$(PREFIX)/share/man/man1" "$(DESTDIR)$(PREFIX)/share/man/man3" "$(DESTDIR)$(PREFIX)/share/man/man5"
	install -m 755 target/bin/list "$(DESTDIR)$(PREFIX)/bin/lampcygnet-list"
	install -m 755 target/bin/list_fields "$(DESTDIR)$(PREFIX)/bin/lampcygnet-fields"
	install -m 755 target/bin/list_labels "$(DESTDIR)$(PREFIX)/bin/lampcygnet-labels"
	install -m 755 target/bin/explain "$(DESTDIR)$(PREFIX)/bin/lampcygnet-explain"
	install -m 755 target/bin/summary "$(DESTDIR)$(PREFIX)/bin/lampcygnet-summary"
	install -m 644 include/lampcygnet.h "$(DESTDIR)$(PREFIX)/include/lampcygnet.h"
	install -m 644 target/staticlib/libcapi.a "$(DESTDIR)$(PREFIX)/lib/liblampcygnet.a"
	$(call filled,lampcygnet.pc.in,lib/pkgconfig/lampcygnet.pc)
	$(call filled,man/lampcygnet-list.1,share/man/man1/lampcygnet-list.1)
	$(call filled,man/lampcygnet-fields.1,share/man/man1/lampcygnet-fields.1)
	$(call filled,man/lampcygnet-labels.1,share/man/man1/lampcygnet-labels.1)
	$(call filled,man/lampcygnet-explain.1,share/man/man1/lampcygnet-explain.1)
	$(call filled,man/lampcygnet-summary.1,share/man/man1/lampcygnet-summary.1)
	$(call filled,man/lampcygnet.3,share/man/man3/lampcygnet.3)
	$(call filled,man/lampcygnet-sheet.5,share/man/man5/lampcygnet-sheet.5)

# A file with its prefix and version filled in.
filled = sed -e 's|@PREFIX@|$(PREFIX)|' -e 's|@VERSION@|$(VERSION)|' $(1) > "$(DESTDIR)$(PREFIX)/$(2)" && chmod 644 "$(DESTDIR)$(PREFIX)/$(2)"

# Takes away the files that `install` puts there.
uninstall:
	for file in bin/lampcygnet-list bin/lampcygnet-fields bin/lampcygnet-labels bin/lampcygnet-explain bin/lampcygnet-summary include/lampcygnet.h lib/liblampcygnet.a lib/pkgconfig/lampcygnet.pc \
		share/man/man1/lampcygnet-list.1 share/man/man1/lampcygnet-fields.1 share/man/man1/lampcygnet-labels.1 share/man/man1/lampcygnet-explain.1 share/man/man1/lampcygnet-summary.1 share/man/man3/lampcygnet.3 share/man/man5/lampcygnet-sheet.5; do rm -f "$(DESTDIR)$(PREFIX)/$$file"; done

# The programs where an input cannot be read, an output cannot be written, an argument is wrong or a sheet is too long; and beside the model, on sheets and on typed lines.
test-programs: programs
	tests/programs/run

# Installs to a temporary folder, and uses what is there.
test-install: programs library
	tests/install/run

# Lays out the sources of every crate.
fmt:
	@for crate in crates/*/; do (cd "$$crate" && rt fmt) || exit 1; done
