# The targets for a newcomer. README.md and CONTRIBUTING.md say what each is for and how long it takes.
.PHONY: help race test edits build install build-library install-library library deb examples documents page hostile refused hosts captures live names session connect proxy fuzz manual kit program

PREFIX ?= /usr/local
DESTDIR ?=
TO = $(DESTDIR)$(PREFIX)
LIBRARY = crates/he_c/out/libhe_c.a
RACE ?= crates/cases/data/ipv6-late-but-within-delay-leads.timeline
DO ?= replay
HE ?= crates/he_tool/out/he_tool
CASES ?= crates/cases/out/cases
SECONDS ?= 60
SEED ?= 1

define HELP
make race                  replays an example race, with the program unproved: the fastest way to see a transcript
make race DO=explain       explains it the same way; also order, summary and so on
make race RACE='FILE ..'   replays the races of files the same way, with one build for all; a program that was built
                           and proved is taken as it is
make test                  the gate (proves every crate, tries the mutations, runs the tests), and then tries the
                           built program as a whole: all of examples to fuzz below, in some ten minutes
make edits                 tries the mutations that the gate leaves out: each must be refused
make build                 proves and builds the program, with a line for each crate when it is proved
make install PREFIX=DIR    puts the program at DIR/bin/he, its manual page, completions and licence below
                           DIR/share, all of it below DESTDIR where that is given; builds it first where that was
                           not done
make deb HE=FILE           makes he.deb, a Debian package of a built program
make build-library         proves and builds the library for C
make install-library PREFIX=DIR
                           puts the library at DIR/lib, its header at DIR/include; builds it first where that was
                           not done
make library HE=FILE       proves and builds the library for C, and tries it and its clients in C, Python and Rust
                           beside a built program
make examples HE=FILE      runs a built program over all examples, and compares its output with files and with a second
                           implementation of the rules, in Python
make documents HE=FILE     runs the command lines of the documents, and compares what is printed below them
make hostile HE=FILE       runs a built program over streams that fail, open pipes, too little memory; bounds the time
                           and memory that it takes for a text of some megabytes
make refused HE=FILE       refuses each allocation of a built program in turn, also of a live race, and those of
                           the races that the crate cases runs
make hosts HE=FILE         compares `he host` of a built program with a second reading (scripts/host_lines.py) and with
                           the kernel, in network namespaces; tries that reading on recorded hosts
make captures HE=FILE      tries tools/from-capture and tools/compare-done on packet captures; needs tshark, tcpdump
make live HE=FILE          runs live races of a built program, and looks from the other side at what it did
make names HE=FILE         looks names up by a built program, from name servers of its own, right ones and wrong ones
make session HE=FILE       runs the sessions of README.md and docs/SESSION.md in a network of its own
make connect HE=FILE       connects by a built program in full: transfers of 100 MB, 1,000 connections under faults
make proxy HE=FILE         connects through `he proxy` in full: curl, git and nc, 10,000 sessions under faults, 100,000
                           drawn beginnings of clients
make fuzz SECONDS=60 SEED=1 HE=FILE
                           compares a built program with that implementation, on random texts
make page HE=FILE          reads pages that a built program draws as a browser would
make manual HE=FILE        compares the help of a built program with its manual page and its completions
endef
export HELP

help:
	@trap '' PIPE; printf '%s\n' "$$HELP" 2> /dev/null || true

# The needs of a target; a line says what is missing.
kit:
	@command -v rt > /dev/null || { echo 'make: no command rt: the kit is not installed, or not on the path' >&2; exit 1; }

program:
	@test -x $(HE) || { echo 'make: no program $(HE): make install, and give HE=PREFIX/bin/he' >&2; exit 1; }

# Several texts are replayed by one build; a program that was built and proved is taken as it is.
race:
	@for file in $(RACE); do test -r "$$file" || { echo "make: no file $$file" >&2; exit 1; }; done
	@if [ -x '$(HE)' ]; then exec '$(HE)' $(DO) $(RACE); fi; \
	command -v rt > /dev/null || { echo 'make: no command rt: the kit is not installed, or not on the path' >&2; exit 1; }; \
	echo 'builds the program with nothing proved, and runs it: some ten minutes' >&2; \
	log=$$(mktemp); trap 'rm -f $$log' EXIT; \
	(cd crates/he_tool && cat $(abspath $(RACE)) | rt try -- $(DO) 2> $$log) || { status=$$?; cat $$log >&2; exit $$status; }

test: kit
	scripts/gate

edits: kit
	scripts/edits $(CRATES)

build: kit
	scripts/build program

# Only copies, so that it may run as root after a build as the user.
install: | $(HE)
	@'$(HE)' --version | grep -q '[(,] *proved)$$' || echo 'make: $(HE) is not known to be proved: make build' >&2
	install -D -m 755 '$(HE)' '$(TO)/bin/he'
	install -D -m 644 docs/he.1 '$(TO)/share/man/man1/he.1'
	install -D -m 644 completions/he.bash '$(TO)/share/bash-completion/completions/he'
	install -D -m 644 completions/_he '$(TO)/share/zsh/site-functions/_he'
	install -D -m 644 completions/he.fish '$(TO)/share/fish/vendor_completions.d/he.fish'
	install -D -m 644 docs/JSON.md '$(TO)/share/doc/he/JSON.md'
	install -D -m 644 LICENSE '$(TO)/share/doc/he/LICENSE'

crates/he_tool/out/he_tool:
	$(MAKE) build

deb: program
	scripts/make-deb $(HE) he.deb

build-library: kit
	scripts/build library

install-library: | $(LIBRARY)
	scripts/make-library '$(PREFIX)' '$(DESTDIR)'

$(LIBRARY):
	$(MAKE) build-library

library: build-library program
	scripts/examples $(HE) library

examples documents page manual captures: program
	scripts/examples $(HE) $@

hosts live names session: program
	scripts/network $(HE) $@

connect proxy: program
	scripts/network $(HE) --full $@

fuzz: program
	scripts/examples $(HE) --full --seconds $(SECONDS) --seed $(SEED) fuzz

hostile: program
	scripts/hostile $(HE) hostile

refused: program $(CASES)
	scripts/hostile $(HE) --cases $(CASES) refused

crates/cases/out/cases: | kit
	cd crates/cases && rt run
