# make test: all checks. make demo: the example flow. make try: the same in minutes, by a program of
# which nothing is proved. make programs: the programs into bin/.
# make install PREFIX=FOLDER: the programs into FOLDER/bin, their manual pages into
# FOLDER/share/man/man1, and completions for bash, which are made of these pages, into
# FOLDER/share/bash-completion/completions, and the module work_queue.py into FOLDER/lib/python. The
# programs are those with a manual page: crates, and scripts in scripts/. The other crates with a main
# hold cases.

PREFIX ?= /usr/local
PROGRAMS := $(patsubst man/%.1,%,$(wildcard man/*.1))
BUILT := $(addprefix bin/,$(PROGRAMS))
SOURCES := crates.txt $(shell find crates scripts -name out -prune -o -type f ! -name "*.md" -print)

.PHONY: test demo try programs install

test:
	@.ci/run

programs: $(BUILT)

bin/%: $(SOURCES)
	@.ci/build $*

demo: bin/makeflow
	@examples/run first

try:
	@examples/try first

install: $(BUILT)
	@mkdir -p "$(DESTDIR)$(PREFIX)/bin"
	@install -m 755 $(BUILT) "$(DESTDIR)$(PREFIX)/bin"
	@mkdir -p "$(DESTDIR)$(PREFIX)/lib/python"
	@install -m 644 scripts/work_queue.py "$(DESTDIR)$(PREFIX)/lib/python"
	@mkdir -p "$(DESTDIR)$(PREFIX)/share/man/man1"
	@install -m 644 man/*.1 "$(DESTDIR)$(PREFIX)/share/man/man1"
	@mkdir -p "$(DESTDIR)$(PREFIX)/share/bash-completion/completions"
	@for name in $(PROGRAMS); do \
		.ci/completion "$$name" > "$(DESTDIR)$(PREFIX)/share/bash-completion/completions/$$name" || exit 1; \
	done
