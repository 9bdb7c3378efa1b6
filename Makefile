# `make` alone lists the targets.

PREFIX ?= /usr/local
built = crates/codesearch/out/codesearch
program = $(built)
# The program before it is linked: proved/ and the archive link it statically.
object = $(built).o
# The library for C and Rust: the archive, the shared object and codesearch.pc stand in one folder.
library = out/lib/libcodesearch.a
# Where nothing is built here and proved/ fits the sources, these targets take the program and the library from there.
with_proved = @taken=$$(scripts/proved.sh where) && $(MAKE) --no-print-directory $$taken
sources = crates.txt $(shell find crates -type d \( -name out -o -name must-fail -o -name mutants \) -prune -o -type f ! -name promises.txt ! -name judged.txt -print)

.PHONY: help check quick test budget wrong mutants trusted promises program lib bench install uninstall dist deb

help:
	@echo 'make program    proves the crates and builds crates/codesearch/out/codesearch: up to an hour the first time'
	@echo 'make lib        proves and builds the library for C and Rust: out/lib'
	@echo 'make install    installs the tools, csparts, the library, manual, completions and editor files under PREFIX (now $(PREFIX))'
	@echo 'make uninstall  removes them'
	@echo 'make dist deb   makes an archive for each Linux on x86-64, and a Debian package, in the folder dist'
	@echo 'make proved     fills the folder proved/ from what is proved and built here'
	@echo 'make quick      the pages, names and types of all crates, and the end-to-end tests on the built program: minutes'
	@echo 'make test       all tests, those of the libraries too if there is a toolchain: a quarter of an hour'
	@echo 'make check      the gate: every proof from nothing, the mutants of must-fail/*.edit, and all tests: over an hour'
	@echo 'make budget     compares what the proof of each crate took in the last run of scripts/budget.py rt ci with budget.txt'
	@echo "make mutants    judges each mutant by itself (also make wrong): hours; CRATES='cs_tree cs_index/NAME' gives some"
	@echo 'make trusted    what has to be read to believe the contracts of the tools'
	@echo 'make promises   each promise with its clauses, definitions and mutants: out/promises.md'
	@echo 'make bench      measures the tools beside their peers over a tree of files: TREE=/usr/src'

check:
	scripts/budget.py rt ci
	scripts/stamps.py
	@$(MAKE) --silent --no-print-directory program lib
	scripts/proved.sh check
	@$(MAKE) --no-print-directory test

# A commit of its own, at each release.
.PHONY: proved
proved: $(built) $(object) $(built)-v3 out/lib/libcodesearch.a
	@scripts/proved.sh make

# The cheap ones first.
quick:
	$(with_proved) quickly

.PHONY: quickly
quickly: pages names $(program) models
	tests/shell/end_to_end.sh $(program)
	tests/shell/manual.sh $(program)

# What is said about the code: seconds, without the program.
.PHONY: pages
pages:
	tests/shell/words.sh
	tests/shell/steps.sh
	tests/shell/docs.py
	tests/shell/house.py
	scripts/promises.py --check
	scripts/trusted.py -q --check

# Names and types of all crates, of those that changed since they last passed.
.PHONY: names
names:
	scripts/names.py

# Names the bodies whose models are above 4 MB. A check makes each in one piece, while all else waits for it.
.PHONY: models
models:
	@find crates/*/out/incremental -name '*.Lts.oantt' -size +4096k -printf 'to split, its model has %k KB: %f\n'

test:
	$(with_proved) tests

# The tests of the pages, of the program, and of the libraries, which need the toolchain and run without a proof.
.PHONY: tests
tests: pages $(program) $(library)
	tests/shell/end_to_end.sh $(program)
	tests/shell/manual.sh $(program)
	tests/shell/use.sh $(program)
	tests/shell/project.sh $(program)
	tests/runs/project.py $(program)
	tests/runs/listing.py $(program)
	tests/runs/settings.py $(program)
	tests/shell/cs.sh $(program)
	tests/shell/edge.sh $(program)
	tests/runs/fresh.py $(program)
	tests/runs/learning.py $(program)
	tests/runs/forged.py $(program)
	tests/shell/parts.sh $(program)
	tests/shell/editors.sh $(program)
	tests/shell/proved.sh $(program)
	LIBRARY=$(dir $(library)) tests/shell/c_library.sh $(program)
	tests/shell/packages.sh $(program)
	tests/runs/rows.py $(program)
	tests/runs/library_rows.py $(dir $(library))libcodesearch.so
	tests/runs/histories.py $(program)
	tests/runs/chance.py $(program)
	tests/runs/library_allocations.py crates/cs_tool_tests/out/cs_tool_tests_tests
	tests/runs/allocations.py $(program)
	tests/runs/damage.py $(program)
	tests/runs/altered.py $(dir $(library))libcodesearch.so
	tests/runs/changing.py $(program)
	tests/runs/failing.py $(program)
	tests/runs/streams.py $(program)
	tests/runs/progress.py $(program)
	tests/libraries.sh

budget:
	scripts/budget.py

wrong mutants:
	scripts/mutants.py $(CRATES)

trusted:
	@scripts/trusted.py

promises:
	@scripts/promises.py

program: $(built)

$(built): $(sources)
	@echo 'codesearch: the program is built; it is proved before, which takes up to an hour the first time' >&2
	@scripts/program.sh
	@touch -c $(built) $(object)

# After `rt ci` there may be a program that an earlier run compiled, without its object file. With no stamp, rt compiles again.
$(object): $(built)
	@rm -f $(built).stamp
	@scripts/program.sh
	@touch -c $(built) $(object)

lib: out/lib/libcodesearch.a

out/lib/libcodesearch.a: $(sources) include/codesearch.h
	@scripts/library.sh
	@touch -c $@

out/proved/lib/libcodesearch.a: proved/libcodesearch.a VERSION
	@mkdir -p $(@D) && cp $< $@ && scripts/shared.sh $(@D)

bench: $(program)
	@scripts/bench.sh $(program) "$(TREE)"

# The program for newer processors, which install.sh takes if it runs here. V3= leaves it out.
v3 = $(built)-v3
V3 = $(shell grep -qsw avx2 /proc/cpuinfo && echo 1)

$(built)-v3: $(built) $(object)
	@echo 'codesearch: the program for x86-64-v3 is compiled, over what is proved' >&2
	@scripts/v3.sh

# One script installs and uninstalls.
install:
	$(with_proved) put

.PHONY: put
put: $(program) $(library) $(if $(V3),$(v3))
	@V3=$(V3) PROGRAM=$(program) LIBRARY=$(dir $(library)) LIBDIR=$(LIBDIR) DESTDIR=$(DESTDIR) scripts/install.sh "$(PREFIX)"

uninstall:
	@LIBDIR=$(LIBDIR) DESTDIR=$(DESTDIR) scripts/install.sh -u "$(PREFIX)"

# An archive and a Debian package in the folder DIST.
DIST ?= dist
dist: $(object) $(library) $(v3)
	@scripts/dist.sh "$(DIST)"

deb: $(program) $(library) $(v3)
	@scripts/deb.sh "$(DIST)"
