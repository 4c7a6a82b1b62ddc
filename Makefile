# make                  proves the crates and builds the program
# make install          copies the program, its manual page and its completions below PREFIX; it builds nothing
# make test             runs the tests of the built program
# make gate             proves every crate, tries every must-fail edit and runs every test, as before a push
# make uninstall, clean
PREFIX ?= /usr/local
DESTDIR ?=
INSTALL ?= install

program = crates/bpdesk/out/bpdesk
to = $(DESTDIR)$(PREFIX)
pages = man/man1/bpdesk.1 bash-completion/completions/bpdesk zsh/site-functions/_bpdesk

.PHONY: build install uninstall test gate clean

build:
	@tools/build && echo "$(program) is built"

install:
	@test -x $(program) || { echo "there is no $(program): run make first" >&2; exit 1; }
	$(INSTALL) -D -m 755 $(program) $(to)/bin/bpdesk
	for page in $(pages); do $(INSTALL) -D -m 644 share/$$page $(to)/share/$$page || exit 1; done

uninstall:
	rm -f $(to)/bin/bpdesk $(addprefix $(to)/share/,$(pages))

test: build
	tests/run

gate:
	.ci/run

# What was proved goes too: the next build takes a good quarter of an hour.
clean:
	rm -rf crates/*/out
