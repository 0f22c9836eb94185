# Installs `jahob` and the tools beside it, and packs them.
#
#   make install PREFIX=/usr/local    the program, the tools, man pages, completions, docs and examples
#   make dist                         the same as a tarball under out/; GATE=FILE takes the last line of a gate's log

PREFIX ?= /usr/local
GATE ?=

install:
	python3 tools/install/install.py install "$(DESTDIR)$(PREFIX)" "$(GATE)"

dist:
	python3 tools/install/install.py dist out "$(GATE)"

.PHONY: install dist
