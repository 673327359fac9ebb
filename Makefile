# Needs the Rattle toolchain, whose command is `rt`; make install, wheel and deb need only the program that it built.
.PHONY: help quick demo check fz test samples install install-fz install-pages install-python install-python-pages install-lib uninstall dist wheel deb

VERSION := $(shell cat VERSION)
PREFIX ?= /usr/local
FZ ?= crates/fz/out/fz
# Where dist, wheel and deb are written, and where the library is that they take.
OUT ?= out
LIBRARIES ?= out
BIN = $(DESTDIR)$(PREFIX)/bin
SHARE = $(DESTDIR)$(PREFIX)/share
LIB = $(DESTDIR)$(PREFIX)/lib
INCLUDE = $(DESTDIR)$(PREFIX)/include
MAN = $(SHARE)/man
DOC = $(SHARE)/doc/fz
# The Python package: a folder of its own, from which fzfits and fzbatch run. (make deb puts it where Python looks for packages.)
PYTHON = $(DESTDIR)$(PREFIX)/lib/fz
BASH = $(SHARE)/bash-completion/completions
ZSH = $(SHARE)/zsh/site-functions
FISH = $(SHARE)/fish/vendor_completions.d
# The commands in Python; the pages and completions of a command have its name.
COMMANDS = fzfits fzbatch
MODULES = $(patsubst python/%,%,$(wildcard python/fzfits/*.py python/fzfits/py.typed python/fzfits/*/*.py python/fzfits/*/*/*.py))
PAGES = $(wildcard README.md CHANGELOG.md CONTRIBUTING.md SECURITY.md LICENSE docs/*.md docs/*.svg docs/*.png python/README.md bench/jobs/README.md)
# What the unproved program is compiled of.
SOURCES = crates.txt $(wildcard crates/*/src/*.rt crates/*/src/*/*.rt crates/*/specs/*.antt crates/*/specs/*/*.antt)

# completions COMMAND: installs those of a command, for three shells.
define completions
install -D -m 644 completions/$(1).bash $(BASH)/$(1)
install -D -m 644 completions/_$(1) $(ZSH)/_$(1)
install -D -m 644 completions/$(1).fish $(FISH)/$(1).fish

endef

help:
	@echo 'make quick      compile fz without proving it: out/fz-unproved, which says so when it runs: a minute'
	@echo 'make demo       pack, list, verify, cut and unpack samples/star_field.fits with it'
	@echo 'make check      compile fz without proving it and run the checks of tools/ on it: about two minutes, nothing proved'
	@echo 'make fz         prove and build the program: crates/fz/out/fz'
	@echo 'make lib        prove and build the library of the codecs: out/libfz.a and out/libfz.so.1'
	@echo 'make test       what the gate runs: every proof, must-fail edit, test and program: an hour and a half or more'
	@echo 'make samples    write samples/ again'
	@echo 'make install    put the program that was built, fzfits, fzbatch, the manuals, the documents and the completions under PREFIX (/usr/local)'
	@echo 'make uninstall  remove them again'
	@echo 'make dist       the sources of the last commit and their SHA-256: out/fz-$(VERSION).tar.gz'
	@echo 'make wheel      the Python package with the program that was built inside: out/fzfits-$(VERSION)-py3-none-PLATFORM.whl'
	@echo 'make deb        Debian packages of the program that was built: out/fz_$(VERSION)_ARCHITECTURE.deb, python3-fzfits, libfz1, libfz-dev'

quick: out/fz-unproved

out/fz-unproved: $(SOURCES)
	@tools/quick

demo:
	@tools/demo

check:
	@tools/check

fz:
	@echo 'Proving and building fz: half an hour or more on 4 processors if nothing was proved yet, seconds if all was.'
	@cd crates/fz && rt run -- list ../../samples/small.fits

test:
	@echo 'The whole gate: an hour and a half or more on 4 processors if nothing was proved yet, minutes if all was.'
	@tools/gate_times --progress bash .ci/run

samples:
	@python3 tools/make_samples.py

install: install-fz install-pages install-python install-python-pages $(if $(wildcard $(LIBRARIES)/libfz.so.1),install-lib)

install-fz:
	@test -x $(FZ) || { echo '$(FZ) is not there: make fz or make test builds it' >&2; exit 1; }
	install -D -m 755 $(FZ) $(BIN)/fz
	install -D -m 644 fz.1 $(MAN)/man1/fz.1
	$(call completions,fz)

install-pages:
	for it in $(PAGES); do install -D -m 644 $$it $(DOC)/$$it || exit 1; done

install-python:
	for it in $(MODULES); do install -D -m 644 python/$$it $(PYTHON)/$$it || exit 1; done
	install -m 644 docs/REFUSALS.md $(PYTHON)/fzfits/REFUSALS.md
	tools/commit > $(PYTHON)/fzfits/COMMIT
	for it in $(COMMANDS); do install -D -m 755 tools/$$it.installed $(BIN)/$$it || exit 1; done

install-python-pages:
	for it in $(wildcard $(COMMANDS:=.1)); do install -D -m 644 $$it $(MAN)/man1/$$it || exit 1; done
	$(foreach it,$(COMMANDS),$(call completions,$(it)))

install-lib:
	@test -s $(LIBRARIES)/libfz.so.1 || { echo '$(LIBRARIES)/libfz.so.1 is not there: make lib builds it' >&2; exit 1; }
	install -D -m 644 $(LIBRARIES)/libfz.so.1 $(LIB)/libfz.so.1
	ln -sf libfz.so.1 $(LIB)/libfz.so
	for it in $(wildcard $(LIBRARIES)/libfz.a); do install -m 644 $$it $(LIB)/libfz.a || exit 1; done
	install -D -m 644 include/fz.h $(INCLUDE)/fz.h
	install -d $(LIB)/pkgconfig
	sed 's|@PREFIX@|$(PREFIX)|; s|@LIBDIR@|$(patsubst $(DESTDIR)%,%,$(LIB))|; s|@VERSION@|$(VERSION)|' packaging/fz.pc.in > $(LIB)/pkgconfig/fz.pc
	for it in $(wildcard *.3); do install -D -m 644 $$it $(MAN)/man3/$$it || exit 1; done

uninstall:
	rm -f $(foreach it,fz $(COMMANDS),$(BIN)/$(it) $(MAN)/man1/$(it).1 $(BASH)/$(it) $(ZSH)/_$(it) $(FISH)/$(it).fish)
	rm -f $(LIB)/libfz.so.1 $(LIB)/libfz.so $(LIB)/libfz.a $(LIB)/pkgconfig/fz.pc $(INCLUDE)/fz.h $(patsubst %,$(MAN)/man3/%,$(wildcard *.3))
	rm -rf $(PYTHON)/fzfits $(DOC)
	-rmdir $(PYTHON) 2> /dev/null

dist:
	@tools/package dist $(OUT)

wheel:
	@FZ=$(FZ) LIB=$(LIBRARIES) tools/package wheel $(OUT)

deb:
	@FZ=$(FZ) LIB=$(LIBRARIES) tools/package deb $(OUT)

.PHONY: lib
lib:
	@tools/make_library $(OUT)
