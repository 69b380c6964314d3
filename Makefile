# Builds, checks and installs tp.
#
#     make                        proves and builds the program, if a source is newer
#     make check                  the gate
#     make install                the program, its man page and its completions, under PREFIX and DESTDIR; it builds nothing
#     make uninstall              removes these
#     make deb                    a Debian package out of a built tree

PREFIX = /usr/local
BINDIR = $(PREFIX)/bin
DATADIR = $(PREFIX)/share
BASHDIR = $(DATADIR)/bash-completion/completions
ZSHDIR = $(DATADIR)/zsh/site-functions
FISHDIR = $(DATADIR)/fish/vendor_completions.d
PROGRAM = crates/tp/out/tp

.PHONY: all check install uninstall deb

all:
	@bin/prove

check:
	@bin/check

install:
	@test -x $(PROGRAM) || { echo "make: $(PROGRAM) isn't built: run 'make' first" >&2; exit 1; }
	install -d "$(DESTDIR)$(BINDIR)" "$(DESTDIR)$(DATADIR)/man/man1" "$(DESTDIR)$(BASHDIR)" "$(DESTDIR)$(ZSHDIR)" "$(DESTDIR)$(FISHDIR)"
	install -m 755 $(PROGRAM) "$(DESTDIR)$(BINDIR)/tp"
	install -m 644 docs/tp.1 "$(DESTDIR)$(DATADIR)/man/man1/tp.1"
	install -m 644 completions/tp.bash "$(DESTDIR)$(BASHDIR)/tp"
	install -m 644 completions/_tp "$(DESTDIR)$(ZSHDIR)/_tp"
	install -m 644 completions/tp.fish "$(DESTDIR)$(FISHDIR)/tp.fish"

uninstall:
	rm -f "$(DESTDIR)$(BINDIR)/tp" "$(DESTDIR)$(DATADIR)/man/man1/tp.1" "$(DESTDIR)$(BASHDIR)/tp" "$(DESTDIR)$(ZSHDIR)/_tp" \
	    "$(DESTDIR)$(FISHDIR)/tp.fish"

deb:
	cd packaging && dpkg-buildpackage -us -uc -b
