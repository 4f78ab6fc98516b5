# For those who type make. docs/INTEGRATE.md says what is built and what is installed where.
#
#   make                       the static library, the shared object and the program desk, in target/
#   make install PREFIX=..     all that a release has; DESTDIR is put before all paths
#   make uninstall PREFIX=..   removes it again
#   make dist                  a tarball, a Debian package and their SHA-256 sums, in target/dist
#   make check                 tests/run
#
# tools/built.py decides by content what is rebuilt. From a built tree install and dist need no rt.

PREFIX ?= /usr/local
DESTDIR ?=
# The pkg-config file is read elsewhere: a relative prefix counts from here.
override PREFIX := $(if $(filter /%,$(firstword $(PREFIX))),$(PREFIX),$(CURDIR)/$(PREFIX))
export PYTHONPYCACHEPREFIX := $(CURDIR)/target/python
# Why there can be no release of this tree. FORCE=1 makes one that is marked.
REFUSAL = $(shell python3 tools/release.py refusal $(FORCED))
FORCED = $(if $(filter 1,$(FORCE)),--force)

all:
	@python3 tools/built.py make library shared desk

install: all
	@python3 tools/release.py install '$(PREFIX)' '$(DESTDIR)'

uninstall:
	@python3 tools/release.py uninstall '$(PREFIX)' '$(DESTDIR)'

# The refusal comes before anything is built.
dist:
	$(if $(REFUSAL),$(error $(REFUSAL)))
	@$(MAKE) --no-print-directory all
	@python3 tools/release.py dist $(FORCED)

check:
	tests/run

.PHONY: all install uninstall dist check
