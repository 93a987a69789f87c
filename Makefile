# Sazamkhri. `make` alone says what can be made; the lines that begin with `#:` are what it prints.
SHELL := /bin/bash
.DEFAULT_GOAL := help
.SILENT:
MAKEFLAGS += --no-print-directory
.PHONY: help list heat program host install uninstall test trials bench clean

# Whatever is typed is taken as it is, also with spaces, quotes and `$`.
override SHEET := $(value SHEET)
PREFIX ?= /usr/local
override PREFIX := $(value PREFIX)
override DESTDIR := $(value DESTDIR)
# The words of the trials; one that is not given is empty.
KIND ?= all
override KIND := $(value KIND)
override N := $(value N)
override SEED := $(value SEED)
override TRIAL := $(value TRIAL)
override JOBS := $(value JOBS)
export SHEET PREFIX DESTDIR KIND N SEED TRIAL JOBS
BUILD := scripts/build.py

#: make list SHEET=FILE       list a sheet: the most alike pairs, or in words why it is refused
list:
	[ -n "$$SHEET" ] || { echo "Which sheet? For example: make list SHEET=examples/three.sheet" >&2; exit 2; }
	[ "$$SHEET" = - ] || [ -e "$$SHEET" ] || exec scripts/list.py -- "$$SHEET"
	$(BUILD) program
	scripts/list.py -- "$$SHEET"

#: make heat SHEET=FILE       paint a sheet's heat map, as an SVG picture on standard output; or say why it is refused
# The picture's program is compiled every time, without a word: that takes a moment, and whatever changed is seen.
heat:
	[ -n "$$SHEET" ] || { echo "Which sheet? For example: make heat SHEET=examples/cemetery.sheet" >&2; exit 2; }
	[ "$$SHEET" = - ] || [ -e "$$SHEET" ] || exec scripts/list.py -- "$$SHEET"
	$(BUILD) host
	PROGRAMS=heat_map KINDS=plain host/build.sh > /dev/null
	[ "$$SHEET" = - ] || set -- "$$SHEET"; target/host/heat_map "$$@" || { status=$$?; \
	[ "$$status" -ne 1 ] || echo "'make list' with this sheet says where, and what to do." >&2; exit "$$status"; }

#: make program               prove and build the program: target/bin/sazamkhri < FILE
program:
	$(BUILD) program

#: make host                  prove and build the library for C and two examples: target/host/list_sheet and heat_map
host:
	$(BUILD) host
	PROGRAMS="list_sheet heat_map" KINDS=plain host/build.sh

#: make install PREFIX=DIR    put header, library and pkg-config file for C there (also: make uninstall PREFIX=DIR)
install:
	$(BUILD) host
	host/install.sh

uninstall:
	host/install.sh --remove

#: make test                  the whole gate: every proof, every check; 25 to 40 minutes
test:
	scripts/test.sh

#: make trials N=.. SEED=..   that many random cases of each kind against an independent program (tests/README.md)
trials:
	$(BUILD) program host probe
	scripts/trials.sh "$$KIND" path="$$PWD/target/bin/sazamkhri" n="$$N" seed="$$SEED" trial="$$TRIAL" jobs="$$JOBS"

#: make bench                 time it beside plain Rust
bench:
	$(BUILD) host probe
	cd bench && CARGO_TARGET_DIR=../target/bench SAZAMKHRI_LIB="$$PWD/../target/staticlib" cargo run --release --quiet --offline

#: make clean                 remove target/ and crates/*/out/, with all that was proved, built or listed there
clean:
	rm -rf target crates/*/out

#: make help                  print this
help:
	sed -n 's/^#: //p' Makefile
