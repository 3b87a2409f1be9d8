# Builds, tests and installs dreplay. Building and proving take the Rattle toolchain's command `rt`,
# which has to be on PATH.
#
#   make            builds the programs, and answers the question of examples/counts.
#                   The first time it also answers it before the build, as make try does
#   make try        answers the question of examples/counts, or of BUNDLE=FILE, before anything is
#                   proved, by a slow program that checks as it runs; takes a minute or two
#   make build      builds crates/dreplay/out/dreplay, crates/dreplay_data/out/dreplay_data and
#                   crates/dreplay_rows/out/dreplay_rows
#   make check      what needs no proof, in under two minutes: layouts and documents, and cases and
#                   examples over the program that is built; says what it left out
#   make test       the gate: every proof from nothing, the edits that must fail, then every case
#                   over both builds. With INSTALL=1 it installs commands that some tests need
#   make cases      builds dreplay, and runs the cases and the examples over it, and those of the
#                   converter of strace's recordings
#   make examples   builds dreplay, and runs the examples alone: each answer is compared with the
#                   one beside its script
#   make install    puts the programs and the tools into PREFIX/bin (without PREFIX into
#                   /usr/local/bin), and man pages, completions, documents and examples into
#                   PREFIX/share; builds the programs only if they aren't there
#   make uninstall  removes all that make install put into PREFIX
#   make dist       packs the same into an archive and a Debian package in dist/, which need no
#                   toolchain
#   make bench      measures the time with 1, 2 and 4 workers beside mawk, the instructions where
#                   valgrind is installed, and the lexer, the parser, the reader and a thread's
#                   variables alone
#   make clean      removes what was built and proved, and dist/
#   make help       prints this

PREFIX ?= /usr/local
PROGRAM := crates/dreplay/out/dreplay
DATA_PROGRAM := crates/dreplay_data/out/dreplay_data
ROWS_PROGRAM := crates/dreplay_rows/out/dreplay_rows
PROGRAMS := $(PROGRAM) $(DATA_PROGRAM) $(ROWS_PROGRAM)
EXAMPLE := examples/counts
BUNDLE ?= $(EXAMPLE)/bundle

.PHONY: help example try build check test cases examples install uninstall dist bench clean

# `make` alone is `make example`.
.DEFAULT_GOAL := example
help:
	@sed -n '/^[^#]/q; s/^# \{0,1\}//p' Makefile

example:
	@test -e $(PROGRAM) || ! command -v rt > /dev/null || $(MAKE) --no-print-directory try || \
	    echo 'The slow program gave no answer; the build goes on.'
	@tools/build
	@echo
	@echo '$$ cat $(EXAMPLE)/script.d'
	@cat $(EXAMPLE)/script.d
	@echo '$$ dreplay < $(EXAMPLE)/bundle'
	@$(PROGRAM) < $(EXAMPLE)/bundle
	@echo
	@echo '$(EXAMPLE)/README.md says how to read it.'

# A compiler that proves nothing builds a slow program, which checks each access as it runs.
try:
	@echo 'The answer to $(BUNDLE), before any proof, in a minute or two:'
	@cd crates/dreplay && rt try < '$(abspath $(BUNDLE))'

# The compiler builds nothing that it has not proved: the first time takes minutes, after that only
# what changed.
build:
	@tools/build

check:
	@tests/check

test:
	@tests/gate

cases: build
	@tests/run --program $(PROGRAM)
	@tests/convert

examples: build
	@tests/run --program $(PROGRAM) $(basename $(wildcard examples/*/*.d))

# What `make install` puts where: each line has a folder under PREFIX, a mode and the files.
TOOLS := $(wildcard tools/dreplay-*)
define INSTALLED
bin 755 $(TOOLS)
share/dreplay/dreplay_tools 644 $(wildcard tools/dreplay_tools/*.py)
share/dreplay/recorders 644 $(wildcard tools/recorders/*)
share/man/man1 644 $(wildcard man/*.1)
share/bash-completion/completions 644 completions/dreplay.bash
share/zsh/site-functions 644 completions/_dreplay
share/fish/vendor_completions.d 644 completions/dreplay.fish
endef
export INSTALLED

$(PROGRAMS):
	@$(MAKE) --no-print-directory build

install: $(PROGRAMS)
	@install -D -m 755 $(PROGRAM) '$(DESTDIR)$(PREFIX)/bin/dreplay'
	@install -m 755 $(DATA_PROGRAM) '$(DESTDIR)$(PREFIX)/bin/dreplay-data'
	@install -m 755 $(ROWS_PROGRAM) '$(DESTDIR)$(PREFIX)/bin/dreplay-rows'
	@echo "$$INSTALLED" | while read -r folder mode files; do \
	    install -d '$(DESTDIR)$(PREFIX)'/"$$folder" && \
	    install -m "$$mode" $$files '$(DESTDIR)$(PREFIX)'/"$$folder" || exit 1; done
	@for tool in dreplay-data dreplay-rows $(notdir $(TOOLS)); do \
	    ln -sf dreplay.bash '$(DESTDIR)$(PREFIX)/share/bash-completion/completions/'"$$tool" && \
	    ln -sf dreplay.fish \
	        '$(DESTDIR)$(PREFIX)/share/fish/vendor_completions.d/'"$$tool.fish" || exit 1; done
	@ln -sf dreplay.bash '$(DESTDIR)$(PREFIX)/share/bash-completion/completions/dreplay'
	@tools/install-docs '$(DESTDIR)$(PREFIX)/share/doc/dreplay'
	@echo 'dreplay is installed: $(DESTDIR)$(PREFIX)/bin/dreplay'

uninstall:
	@rm -f '$(DESTDIR)$(PREFIX)/bin/dreplay' '$(DESTDIR)$(PREFIX)/bin/dreplay-data' \
	    '$(DESTDIR)$(PREFIX)/bin/dreplay-rows'
	@echo "$$INSTALLED" | while read -r folder mode files; do \
	    for file in $$files; do rm -f '$(DESTDIR)$(PREFIX)'/"$$folder/$${file##*/}"; done; done
	@for tool in dreplay dreplay-data dreplay-rows $(notdir $(TOOLS)); do \
	    rm -f '$(DESTDIR)$(PREFIX)/share/bash-completion/completions/'"$$tool" \
	        '$(DESTDIR)$(PREFIX)/share/fish/vendor_completions.d/'"$$tool.fish"; done
	@rm -rf '$(DESTDIR)$(PREFIX)/share/dreplay' '$(DESTDIR)$(PREFIX)/share/doc/dreplay'

dist: $(PROGRAMS)
	@tools/make-dist $(PROGRAM) $(DATA_PROGRAM) $(ROWS_PROGRAM)

bench: build
	@bench/run --workers 1,2,4
	@if command -v valgrind > /dev/null; then bench/instructions; fi
	@for part in lexer parser reading variables; do bench/part $$part || exit 1; done

clean:
	@rm -rf crates/*/out dist
