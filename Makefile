# Installs StreamBox, and takes it away again. It builds nothing: ./streambox --build does that.
#
#   make install [PREFIX=/usr/local] [DESTDIR=]     the program that was built here, or else that of release/
#   make uninstall [PREFIX=/usr/local] [DESTDIR=]
#   make deb                                        a Debian package, in the directory where you are
#
# The command is PREFIX/bin/streambox, and the tools are streambox-records, -rows, -why, -chart and -step beside it. What
# they need is in PREFIX/libexec/streambox. DESTDIR comes before PREFIX, as packages want it.

PREFIX = /usr/local
DESTDIR =
PROGRAM = $(firstword $(wildcard crates/streambox/out/streambox release/streambox))

root = $(DESTDIR)$(PREFIX)
libexec = $(root)/libexec/streambox
man = $(root)/share/man/man1/streambox.1
bash = $(root)/share/bash-completion/completions/streambox
zsh = $(root)/share/zsh/site-functions/_streambox
fish = $(root)/share/fish/vendor_completions.d/streambox.fish
documents = $(root)/share/doc/streambox
tools = records rows why chart step
scripts = $(addprefix packaging/,commands.txt table.awk words.awk plan.awk tables.awk draw.awk)

.PHONY: help install uninstall deb

help:
	@sed -n '1,/^$$/s/^# \{0,1\}//p' Makefile

install:
	@test -n "$(PROGRAM)" || { echo 'make: no program is built, and release/ has none: ./streambox --build' >&2; exit 1; }
	install -d $(libexec)/help $(libexec)/tools $(root)/bin $(documents)
	install -m 755 $(PROGRAM) $(libexec)/streambox
	packaging/about.sh $(PROGRAM) > $(libexec)/about.txt
	install -m 644 $(scripts) $(libexec)
	install -m 755 packaging/files.sh $(libexec)
	install -m 644 packaging/help/*.txt $(libexec)/help
	install -m 755 $(addprefix tools/,$(tools)) $(libexec)/tools
	install -m 644 $(filter-out $(addprefix tools/,$(tools)),$(wildcard tools/*)) $(libexec)/tools
	install -m 755 packaging/front $(root)/bin/streambox
	for tool in $(tools); do ln -sf ../libexec/streambox/tools/$$tool $(root)/bin/streambox-$$tool; done
	install -D -m 644 docs/streambox.1 $(man)
	install -D -m 644 packaging/completions/streambox.bash $(bash)
	install -D -m 644 packaging/completions/_streambox $(zsh)
	install -D -m 644 packaging/completions/streambox.fish $(fish)
	install -m 644 README.md docs/*.md $(documents)

uninstall:
	rm -rf $(libexec) $(documents)
	rm -f $(root)/bin/streambox $(addprefix $(root)/bin/streambox-,$(tools)) $(man) $(bash) $(zsh) $(fish)

deb:
	packaging/deb.sh
