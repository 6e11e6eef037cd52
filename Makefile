# make, make proof: proves and builds the program, if sources have changed.  make test: the gate, all proofs and tests.
# make docs: writes docs/definitions.html and docs/definitions.md from the definitions, and draws docs/layers.svg from crates.txt.
# make install [PREFIX=/usr/local] [DESTDIR=]: installs the program, the tools, Python's package, manual pages, completions,
# documents and examples.  make uninstall removes them.  make dist: packages for machines without the kit, in dist/.
# make pages: the manual pages and completions of the tools, from their parsers.
PREFIX = /usr/local
DESTDIR =
BIN = $(DESTDIR)$(PREFIX)/bin
SHARE = $(DESTDIR)$(PREFIX)/share
LIBEXEC = $(DESTDIR)$(PREFIX)/libexec/simgrid_replay
# Documents and examples; the commands in documents get their installed names.
DOCDIR = $(PREFIX)/share/doc/simgrid_replay
DOCUMENTS = $(wildcard $(or $(shell git ls-files examples docs ':(glob)*.md' CITATION.cff 2>/dev/null),$(shell find examples docs -type f) *.md CITATION.cff))
PROGRAM = crates/simgrid_replay/out/simgrid_replay
# The contents of tools/: programs, modules that they share, and folders of modules; install takes those that exist.
TOOLS = explain gantt usage totable report cluster from_simgrid sweep
MODULES = named.py
FOLDERS = simgrid_files
# The package is installed where Python searches under this prefix, if it searches there at all; the tools get its modules too.
PACKAGE = $(patsubst python/%,%,$(wildcard python/simgrid_replay/*.py python/simgrid_replay/*/*.py python/simgrid_replay/py.typed))
PYTHON = python3
PYTHONDIR = $(DESTDIR)$(PREFIX)/$(shell $(PYTHON) -c 'import sys; p = "$(PREFIX)/"; \
    print(next((d[len(p):] for d in sys.path if d.startswith(p + "lib/python") and d.endswith("-packages")), "lib/python3/dist-packages"))')
DIST = dist
INSTALLED = $(notdir $(wildcard $(TOOLS:%=tools/%)))
empty =
NAMES = sed -E 's,\btools/($(subst $(empty) $(empty),|,$(TOOLS)))\b,simgrid_replay-\1,g; s,\./simgrid_replay ,simgrid_replay ,g'

all proof:
	.ci/build

test check:
	.ci/run

docs:
	.ci/docs
	.ci/layers

install: all
	install -d $(BIN) $(LIBEXEC) $(SHARE)/man/man1 $(SHARE)/bash-completion/completions $(SHARE)/zsh/site-functions \
	    $(SHARE)/fish/vendor_completions.d $(DESTDIR)$(DOCDIR)
	install -m 755 $(PROGRAM) $(BIN)/simgrid_replay
	for tool in $(INSTALLED); do \
	    install -m 755 tools/$$tool $(LIBEXEC)/$$tool && \
	    ln -sf ../libexec/simgrid_replay/$$tool $(BIN)/simgrid_replay-$$tool || exit 1; \
	done
	for module in $(MODULES) $(foreach folder,$(FOLDERS),$(patsubst tools/%,%,$(wildcard tools/$(folder)/*.py))); do \
	    install -D -m 644 tools/$$module $(LIBEXEC)/$$module || exit 1; \
	done
	for file in $(patsubst python/%,%,$(wildcard python/simgrid_replay/*.py)); do \
	    install -D -m 644 python/$$file $(LIBEXEC)/$$file || exit 1; \
	done
	for file in $(PACKAGE); do install -D -m 644 python/$$file $(PYTHONDIR)/$$file || exit 1; done
	sed 's,docs/\([a-z_]*\.md\),$(DOCDIR)/docs/\1,' docs/simgrid_replay.1 >$(SHARE)/man/man1/simgrid_replay.1
	chmod 644 $(SHARE)/man/man1/simgrid_replay.1
	for tool in $(INSTALLED); do \
	    install -m 644 docs/man/simgrid_replay-$$tool.1 $(SHARE)/man/man1/ && \
	    install -m 644 completions/simgrid_replay-$$tool.bash $(SHARE)/bash-completion/completions/simgrid_replay-$$tool && \
	    install -m 644 completions/_simgrid_replay-$$tool $(SHARE)/zsh/site-functions/ || exit 1; \
	done
	for file in $(DOCUMENTS); do \
	    install -D -m "$$([ -x $$file ] && echo 755 || echo 644)" $$file $(DESTDIR)$(DOCDIR)/$$file || exit 1; \
	    case $$file in *.md) $(NAMES) $$file >$(DESTDIR)$(DOCDIR)/$$file || exit 1 ;; esac; \
	done
	install -m 644 completions/simgrid_replay.bash $(SHARE)/bash-completion/completions/simgrid_replay
	install -m 644 completions/_simgrid_replay $(SHARE)/zsh/site-functions/_simgrid_replay
	install -m 644 completions/simgrid_replay.fish $(SHARE)/fish/vendor_completions.d/simgrid_replay.fish

uninstall:
	rm -f $(BIN)/simgrid_replay $(SHARE)/man/man1/simgrid_replay.1
	for tool in $(TOOLS); do \
	    rm -f $(BIN)/simgrid_replay-$$tool $(LIBEXEC)/$$tool $(SHARE)/man/man1/simgrid_replay-$$tool.1 \
	        $(SHARE)/bash-completion/completions/simgrid_replay-$$tool $(SHARE)/zsh/site-functions/_simgrid_replay-$$tool; \
	done
	rm -rf $(DESTDIR)$(DOCDIR)
	cd $(LIBEXEC) 2>/dev/null && rm -rf simgrid_replay $(MODULES) $(FOLDERS) __pycache__ || :
	rm -rf $(PYTHONDIR)/simgrid_replay
	rm -f $(SHARE)/bash-completion/completions/simgrid_replay $(SHARE)/zsh/site-functions/_simgrid_replay
	rm -f $(SHARE)/fish/vendor_completions.d/simgrid_replay.fish

# SIMGRID_REPLAY names another program, which is then packed instead of the one that is built here.
dist: $(if $(SIMGRID_REPLAY),,all)
	$(PYTHON) -B packaging/dist --program $(or $(SIMGRID_REPLAY),$(PROGRAM)) --output $(DIST)

# The generators are Debian's help2man and python3-shtab.
pages:
	packaging/pages

.PHONY: pages all proof test check docs install uninstall dist
