# `make test` is the gate. Whatever runs the programs builds them first, if a source has changed.
PREFIX ?= $(HOME)/.local
STATE ?= watchmand.state
SOCKET ?= watchmand.socket
FILES ?= 100000

# Given by the user, not by the environment. PROGRAMS is a folder with the four programs, if they aren't to be built here.
PROGRAMS :=
CASE :=
CRATE :=
NAME :=
AT := $(if $(PROGRAMS),--programs $(PROGRAMS))
path_of = $(if $(PROGRAMS),$(PROGRAMS)/$(1),crates/$(1)/out/$(1))
PROGRAM := $(call path_of,watchmand)
CLIENT := $(call path_of,wmctl)
FEED := $(call path_of,wmfeed)
COMMANDS := $(call path_of,wm)
ALL := $(PROGRAM) $(CLIENT) $(FEED) $(COMMANDS)
ASK := bench/out/ask
SOURCES := crates.txt $(shell find crates -name out -prune -o -type f \( -name '*.rt' -o -name '*.antt' \) -print)

# The programs have the version from this constant.
VERSION := $(shell sed -n 's/^pub const VERSION: &str = "\(.*\)";$$/\1/p' crates/wm_protocol/src/lib.rt)
ARCHIVE := watchmand-$(VERSION)-linux-$(shell uname -m)
# The folder above bin/ that the installed units name.
UNIT_PREFIX ?= $(PREFIX)
SHARE := $(DESTDIR)$(PREFIX)/share
EXAMPLES := build.sh compile_trigger.sh follow.py test_runner.sh

.PHONY: check quick test edits try pages fuzz bench build run install uninstall dist clean help

# `make help` prints the comments that begin with two marks. A target's line ends with all that it needs and its time.
## make check     the fast checks without proofs: documents, names, must-fail edits, callers, widths
##                of clauses, layout, completion (python3, bash; rattle for the layout; seconds)
check:
	tools/gate/check.py

## make quick     the built programs under rough use (python3, setpriv; with strace and
##                inotify-tools more cases; 3 minutes)
quick: $(ALL)
	tools/try.py --quick $(AT)

## make test      the gate: check, each proof from nothing, edits that must be refused, tests,
##                growths and quick (rt, python3, cc; some two hours on four processors)
test: check
	tools/gate/gate.sh

## make edits     the must-fail edits that the gate leaves out (rt; four hours); CRATE=wm_view: of one
##                crate; CRATE=sweep: a migration cut at each call with each end (half an hour);
##                CRATE=crawl_on_one_thread: a crawl that a test must refuse (minutes)
edits:
	tools/gate/edits.sh $(CRATE)

## make try       tries the built programs; CASE=kill: one of serve, sessions, files, triggers,
##                crawls, log, messages, wm, feed, kill, faults, growths, memory, clients
##                (python3, cc, git, inotify-tools, strace, setpriv, script; half an hour; clients
##                installs Watchman's clients by apt-get)
try: $(ALL)
	tools/try.py $(AT) $(CASE)

## make pages     runs every example of README, GUIDE, QUERIES and examples/, and asks a server at its
##                limits (python3, cc, make, inotify-tools; a minute)
pages: $(ALL)
	tools/pages.py $(AT)

## make fuzz      random lines, state files and clients, compared with a model in Python (python3;
##                2 minutes; tools/fuzz/fuzz.py --minutes 60 runs for an hour)
fuzz: $(PROGRAM)
	tools/fuzz/fuzz.py $(PROGRAM)

## make bench     measures NAME=lines, commands, crawl, view, share or match, with FILES=100000 files
##                in view and share (python3, cc, GNU time; a few minutes); NAME=peer, feed or plots
##                beside Watchman, which apt-get installs (5 to 30 minutes)
BENCHES := lines commands crawl view share match peer feed plots
lines := bench/lines.sh $(PROGRAM)
commands := bench/commands.py $(PROGRAM) $(ASK)
crawl := bench/crawl.py $(PROGRAM)
view := bench/view.py $(PROGRAM) $(FILES)
share := bench/share.py $(PROGRAM) $(ASK) $(FILES)
match := bench/match.py $(PROGRAM)
peer := bench/peer.sh $(PROGRAM) --feed $(FEED)
feed := bench/peer.sh $(PROGRAM) --feed-only $(FEED) --runs 3
plots := $(peer) --runs 3 --json bench/peer.json && bench/plots.py bench/peer.json bench
bench: $(if $(filter $(NAME),$(BENCHES)),$(PROGRAM) $(FEED) $(ASK))
	$(if $(filter $(NAME),$(BENCHES)),$($(NAME)),$(error make bench NAME=..: one of $(BENCHES)))

$(ASK): bench/ask.c
	@mkdir -p $(@D)
	cc -O2 -pthread -o $@ $<

## make build     proves and builds the programs (rt, python3; the first time over an hour on four
##                processors)
build: $(ALL)

ifndef PROGRAMS
$(ALL) &: $(SOURCES)
	tools/gate/build.py
endif

## make run       a server over STATE (watchmand.state, made if it isn't there) at SOCKET
##                (watchmand.socket), until it is interrupted
# Free memory goes back to the system, and all threads share eight arenas: settings of the C library.
run: $(PROGRAM) $(CLIENT) $(FEED)
	@test -e $(STATE) || $(PROGRAM) format $(STATE)
	@echo "In other shells: $(CLIENT) $(SOCKET) '[\"watch\",\"$(CURDIR)\"]', and $(FEED) $(SOCKET)"
	@MALLOC_TRIM_THRESHOLD_=131072 MALLOC_ARENA_MAX=8 $(PROGRAM) serve $(STATE) $(SOCKET)

## make install   the programs, man pages, completion, systemd user units and documents into PREFIX
##                (~/.local; after the build at once)
install: $(ALL)
	install -d $(DESTDIR)$(PREFIX)/bin $(SHARE)/man/man1 $(SHARE)/bash-completion/completions
	install -d $(SHARE)/zsh/site-functions $(SHARE)/systemd/user
	install -d $(addprefix $(SHARE)/doc/watchmand/,docs examples bench)
	install -m 755 $(ALL) $(DESTDIR)$(PREFIX)/bin
	install -m 644 man/watchmand.1 man/wm.1 man/wmctl.1 man/wmfeed.1 $(SHARE)/man/man1
	install -m 644 completion/watchmand.bash $(SHARE)/bash-completion/completions/watchmand
	for name in wm wmctl wmfeed; do ln -sf watchmand $(SHARE)/bash-completion/completions/$$name; done
	install -m 644 completion/_wm $(SHARE)/zsh/site-functions/_wm
	for name in watchmand wmfeed; do \
	  sed 's|@PREFIX@|$(UNIT_PREFIX)|' systemd/$$name.service > $(SHARE)/systemd/user/$$name.service && \
	  chmod 644 $(SHARE)/systemd/user/$$name.service || exit 1; \
	done
	install -m 644 LICENSE README.md CHANGELOG.md CONTRIBUTING.md $(SHARE)/doc/watchmand
	install -m 644 $(wildcard docs/*.md docs/contracts.txt) $(SHARE)/doc/watchmand/docs
	install -m 755 $(addprefix examples/,$(EXAMPLES)) $(SHARE)/doc/watchmand/examples
	install -m 644 bench/README.md $(wildcard bench/*.svg) $(SHARE)/doc/watchmand/bench

## make uninstall removes from PREFIX all that install put there
# An earlier version put its units below lib/.
uninstall:
	rm -f $(addprefix $(DESTDIR)$(PREFIX)/bin/,watchmand wm wmctl wmfeed)
	rm -f $(addprefix $(SHARE)/man/man1/,watchmand.1 wm.1 wmctl.1 wmfeed.1)
	rm -f $(addprefix $(SHARE)/bash-completion/completions/,watchmand wm wmctl wmfeed)
	rm -f $(SHARE)/zsh/site-functions/_wm
	rm -f $(addprefix $(SHARE)/systemd/user/,watchmand.service wmfeed.service)
	rm -f $(addprefix $(DESTDIR)$(PREFIX)/lib/systemd/user/,watchmand.service wmfeed.service wmfeed@.service)
	rm -rf $(SHARE)/doc/watchmand

## make dist      makes dist/watchmand-*.tar.gz and its .sha256, and tries the archive (tar, gzip,
##                strip, ldd; a few seconds)
dist: $(ALL)
	tools/gate/dist.sh $(ALL) $(VERSION) dist/$(ARCHIVE)

## make clean     removes all that was built and proved here
clean:
	rm -rf $(wildcard crates/*/out) bench/out

## PROGRAMS=FOLDER after a target: the four programs are those of the folder, and none is built.
help:
	@sed -n 's/^## //p' Makefile
