# Installs what release/ holds; nothing is built or proved here.
#
#     make install PREFIX=/usr/local [DESTDIR=..]     program, library, header, man page, completion, page
#     make uninstall PREFIX=/usr/local [DESTDIR=..]
#     make deb                                        a Debian package in out/
#
# With MACHINE=x86_64 or MACHINE=aarch64 for the machine that is named. docs/INSTALL.md says more.

PREFIX = /usr/local
DESTDIR =
LIBDIR = $(PREFIX)/lib
ZSHDIR = $(PREFIX)/share/zsh/site-functions
MACHINE := $(shell uname -m)

# what release/ has for this machine
built = $(if $(filter aarch64,$(MACHINE)),release/aarch64,release)

# the shared library, and the name by which programs that are linked with it ask for it, if it has one
LIBRARY = $(built)/libneqysbar.so
SONAME := $(shell grep -aom 1 'libneqysbar\.so\.[0-9][0-9]*' $(LIBRARY))

VERSION := $(shell cat VERSION)
TEXTS = help/neqysbar.txt $(foreach command,serial replay make check study dump show,help/$(command).txt)

# the folders that are this program's own
home = $(DESTDIR)$(PREFIX)/lib/neqysbar
page = $(DESTDIR)$(PREFIX)/share/neqysbar/player
documents = $(DESTDIR)$(PREFIX)/share/doc/neqysbar
# and those that it shares
binaries = $(DESTDIR)$(PREFIX)/bin
headers = $(DESTDIR)$(PREFIX)/include
libraries = $(DESTDIR)$(LIBDIR)
manual = $(DESTDIR)$(PREFIX)/share/man/man1
bash = $(DESTDIR)$(PREFIX)/share/bash-completion/completions
zsh = $(DESTDIR)$(ZSHDIR)

put = install -m 644
put_program = install -m 755

.PHONY: help install uninstall deb
help:
	@sed -n '/^#/!q; s/^# \{0,1\}//p' Makefile

install:
	@release/is_of_sources || { echo "make: release/ isn't built from the sources that are here: release/make does it" >&2; exit 1; }
	@case "$(MACHINE)" in x86_64 | aarch64) ;; *) echo "make: there is no program for $(MACHINE), but for x86_64 and aarch64" >&2; exit 1 ;; esac
	@case "$(PREFIX)" in /*) ;; *) echo "make: PREFIX has to begin with /" >&2; exit 1 ;; esac
	umask 022 && install -d "$(home)/$(built)" "$(home)/help" "$(binaries)" "$(headers)" "$(libraries)/pkgconfig" \
	    "$(manual)" "$(bash)" "$(zsh)" "$(page)" "$(documents)/docs" "$(documents)/python/neqysbar"
	$(put_program) neqysbar "$(home)/"
	$(put_program) $(built)/neqysbar "$(home)/$(built)/"
	$(put) VERSION "$(home)/"
	$(put) $(TEXTS) "$(home)/help/"
	ln -sf ../lib/neqysbar/neqysbar "$(binaries)/neqysbar"
	$(put) library/neqysbar.h "$(headers)/"
	$(put) $(built)/libneqysbar.a "$(libraries)/"
	$(put) $(LIBRARY) "$(libraries)/$(or $(SONAME),libneqysbar.so)"
	$(if $(SONAME),ln -sf $(SONAME) "$(libraries)/libneqysbar.so")
	sed 's|@PREFIX@|$(PREFIX)|; s|@LIBDIR@|$(LIBDIR)|; s|@VERSION@|$(VERSION)|' packaging/neqysbar.pc.in >"$(libraries)/pkgconfig/neqysbar.pc"
	awk -v version="$(VERSION)" -f help/man.awk $(TEXTS) >"$(manual)/neqysbar.1"
	awk -v shell=bash -f help/completion.awk $(TEXTS) >"$(bash)/neqysbar"
	awk -v shell=zsh -f help/completion.awk $(TEXTS) >"$(zsh)/_neqysbar"
	chmod 644 "$(libraries)/pkgconfig/neqysbar.pc" "$(manual)/neqysbar.1" "$(bash)/neqysbar" "$(zsh)/_neqysbar"
	$(put) $(wildcard player/*.html player/*.css player/*.js player/*.wasm) "$(page)/"
	$(put) README.md CHANGELOG.md "$(documents)/"
	$(put) $(wildcard docs/*.md) "$(documents)/docs/"
	$(put) VERSION $(wildcard python/neqysbar/*.py) python/neqysbar/py.typed "$(documents)/python/neqysbar/"
	umask 022 && find examples -type f ! -path '*/__pycache__/*' ! -name check ! -name test_scripts.py \
	    -exec sh -c 'for file; do install -D -m "$$([ -x "$$file" ] && echo 755 || echo 644)" "$$file" "$$0/$$file"; done' \
	    "$(documents)" {} +

uninstall:
	rm -rf "$(home)" "$(DESTDIR)$(PREFIX)/share/neqysbar" "$(documents)"
	rm -f "$(binaries)/neqysbar" "$(headers)/neqysbar.h" "$(libraries)/libneqysbar.a" "$(libraries)/libneqysbar.so" $(if $(SONAME),"$(libraries)/$(SONAME)") \
	    "$(libraries)/pkgconfig/neqysbar.pc" "$(manual)/neqysbar.1" "$(bash)/neqysbar" "$(zsh)/_neqysbar"

deb:
	packaging/deb $(MACHINE)
