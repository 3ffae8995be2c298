# The commands of a user, and the gate. `make help` lists them.

CALL ?= chunks
FILE ?= examples/box.glb
PREFIX ?= /usr/local
NAME :=
BENCHES := items records import files convert peers c

# The scripts in tools/ take the words from the environment, unchanged: a path may have any
# character. The caller's folder is another one under `make -C`.
export GLTF_CALL := $(value CALL)
export GLTF_FILE := $(value FILE)
export GLTF_PREFIX := $(value PREFIX)
export GLTF_FROM := $(value PWD)

help:
	@echo 'For users'
	@echo '  make show [CALL=chunks|check] [FILE=PATH]  shows the chunks of a GLB file, or checks a file'
	@echo '  make prove                                 proves and builds the programs'
	@echo '  make c [WORDS=--long]                      proves, builds and tests the library for C'
	@echo '  make python                                tries the package for Python, after make c'
	@echo '  make wheel                                 writes the wheel of it to out/dist'
	@echo '  make rust                                  tries the crate for Rust, after make c'
	@echo '  make install [PREFIX=FOLDER] [DESTDIR=..] [LIBDIR=..] [INCLUDEDIR=..] [MANDIR=..]'
	@echo '                                             installs the programs and that library'
	@echo '  make uninstall                             removes them: with the same words'
	@echo '  make dist, make deb                        packs them as a tarball, as Debian packages'
	@echo '  make reference                             writes out/reference/index.html'
	@echo 'For a change'
	@echo '  make check NAME=CRATE                      proves one crate and those that it uses'
	@echo '  make case                                  runs the cases alone'
	@echo '  make fuzz [SECONDS=60]                     runs libFuzzer over the library for C, after make c'
	@echo '  make soak [FILES=2000]                     runs the programs on broken files, after make prove'
	@echo '  make peers [FILES=2000]                    the same, with other loaders that Debian has'
	@echo '  make gltfpack                              converts what the gltfpack of Debian makes'
	@echo '  make devices                               runs them where the system fails them'
	@echo '  make packages [WORDS=--long]               tries what is installed and packed'
	@echo '  make pages [WORDS=--shots]                 tries reports and pages of inspect, in Chromium'
	@echo '  make many [FILES=1000]                     tries the checking of many files'
	@echo '  make memory [WORDS=--long]                 runs them with each growth of memory refused'
	@echo '  make stack [WORDS=--measure]               runs them, and the library for C, with little stack'
	@echo '  make coverage [FILES=400]                  says which code of that library the fuzzer reaches'
	@echo '  make wrong [NAME=CRATE]                    tries the wrong bodies of a crate'
	@echo '  make bench [NAME=NAME] [WORDS=..]          runs a benchmark of benches/, or all of them'
	@echo '  make cost [NAME=CRATE] [WORDS=--write]     times the proof, tests and wrong bodies of each crate'
	@echo '  make test                                  the gate: all proofs and all tests'

show:
	@python3 tools/show.py

prove:
	@python3 tools/prove.py

c:
	@python3 tools/c.py $(WORDS)

install uninstall: export DESTDIR := $(value DESTDIR)
install uninstall: export LIBDIR := $(value LIBDIR)
install uninstall: export INCLUDEDIR := $(value INCLUDEDIR)
install uninstall: export MANDIR := $(value MANDIR)
install:
	@python3 tools/install.py

uninstall:
	@python3 tools/install.py uninstall

dist:
	@python3 tools/dist.py $(WORDS)

deb:
	@python3 tools/deb.py $(WORDS)

reference:
	@python3 tools/reference.py

check: export GLTF_NAME := $(value NAME)
check:
	@test -n "$$GLTF_NAME" || { echo 'make check NAME=CRATE: NAME is missing' >&2; exit 2; }
	@python3 tools/prove.py

case:
	@python3 tools/case.py

# Each in turn. WORDS are passed on, as in `make bench NAME=peers WORDS=--quick`. What needs words is
# not among them: `make bench NAME=inputs WORDS="OLD NEW"`.
BENCHES += profile memory inspect nodes
bench:
	@for it in $(or $(NAME),$(BENCHES)); do \
		test -x "benches/$$it/run.sh" || { \
			echo "make bench: there is no $$it: NAME is one of $(BENCHES)" >&2; exit 2; }; \
		echo "== $$it" >&2; "benches/$$it/run.sh" $(WORDS) || exit; \
	done

# What costs nothing comes first. After `rt ci` come the scripts that run the programs which it
# built. The last line adds up all: `N passed, M failed`.
test:
	@tools/copies.sh
	@python3 tools/cases.py --check
	@python3 crates/gltf_json_cases/cases.py --check
	@python3 tools/links.py
	@python3 tools/trust.py
	@python3 tools/edits.py
	@python3 tools/gate.py

python:
	@python3 tools/python.py

wheel:
	@python3 tools/wheel.py

rust:
	@python3 tools/rust.py

packages:
	@python3 tools/packages.py $(WORDS)

pages:
	@python3 tools/pages.py $(WORDS)

many:
	@python3 tools/many.py $(FILES)

fuzz:
	@python3 tools/fuzz.py $(SECONDS) $(WORDS)

soak:
	@python3 tools/soak.py $(FILES)

peers:
	@python3 tools/soak.py $(or $(FILES),2000) --peers

gltfpack:
	@python3 tools/gltfpack.py

devices:
	@python3 tools/devices.py

memory:
	@python3 tools/memory.py $(WORDS)

stack:
	@python3 tools/stack.py $(WORDS)

coverage:
	@python3 tools/coverage.py $(FILES)

wrong:
	@tools/wrong.sh $(NAME)

cost:
	@python3 tools/cost.py $(NAME) $(WORDS)

.PHONY: help show prove c install uninstall dist deb reference check case bench test wrong python
.PHONY: wheel rust packages pages many fuzz soak peers gltfpack devices memory stack coverage cost
