# make install PREFIX=/usr/local    copies the executable, its man page and completions, and the tracer where it is built
#                                   (make -C tracer), and nothing else. DESTDIR goes before all paths.
# Nothing has to be built for it: bin/mpimatch needs no library of the machine.
PREFIX ?= /usr/local
TO = $(DESTDIR)$(PREFIX)
TRACER = tracer/libmpimatch.so

help:
	@echo "make install PREFIX=/usr/local    (./check checks, ./mpimatch runs)"

install:
	install -D -m 755 bin/mpimatch $(TO)/bin/mpimatch
	[ ! -e man/mpimatch.1 ] || install -D -m 644 man/mpimatch.1 $(TO)/share/man/man1/mpimatch.1
	[ ! -e completions/mpimatch.bash ] || install -D -m 644 completions/mpimatch.bash $(TO)/share/bash-completion/completions/mpimatch
	[ ! -e completions/_mpimatch ] || install -D -m 644 completions/_mpimatch $(TO)/share/zsh/site-functions/_mpimatch
	[ ! -e completions/mpimatch.fish ] || install -D -m 644 completions/mpimatch.fish $(TO)/share/fish/vendor_completions.d/mpimatch.fish
ifneq ($(wildcard $(TRACER)),)
	install -D -m 755 -t $(TO)/lib/mpimatch $(TRACER) tracer/mpimatch-run tracer/lines
	printf '#!/bin/sh\nexec "$$(dirname "$$(readlink -f "$$0")")/../lib/mpimatch/mpimatch-run" "$$@"\n' >$(TO)/bin/mpimatch-run
	chmod 755 $(TO)/bin/mpimatch-run
else
	@echo "note: the tracer isn't built, so it isn't installed (make -C tracer)"
endif

.PHONY: help install
