# The README's commands.

# Plays a script, by default the first one, on a device in memory, or with DISK=PATH in a file. With EXPLAIN=1 more is told of what
# fails. The build is not proved, and is kept until a source changes.
SCRIPT = examples/first.json
UNPROVED = crates/tmem/out/unproved

run: $(UNPROVED)
	@echo "This build was not proved: make build proves the program."
	@$(UNPROVED) run "$(SCRIPT)" $(if $(DISK),--disk "$(DISK)") $(if $(EXPLAIN),--explain)

$(UNPROVED): .ci/unproved crates.txt $(shell find crates -name out -prune -o -name '*.rt' -print)
	@echo "Building the program without a proof, which takes one to three minutes" >&2
	@mkdir -p $(@D)
	@.ci/unproved tmem $@

# Proves the program and all that it stands on, and leaves it at crates/tmem/out/tmem.
build:
	cd crates/tmem && rt run -- --version

# Proves and tests everything, tries eleven mutants, and runs what the documents show.
test:
	.ci/test

# Tries all mutants, those in mutants/ and test-mutants/: of the crates that CRATES names, or of all.
mutants:
	.ci/mutants $(CRATES)

# Compares the program with plain models (fuzz/): on hostile contents and scripts, as many as CASES says, and on random requests, made of
# SEED. Case K alone: fuzz/fuzz crates/tmem/out/unproved CASES SEED K, and so for fuzz/serve
CASES = 20000
REQUESTS = 400
SEED = 1

fuzz: $(UNPROVED)
	@fuzz/fuzz $(UNPROVED) $(CASES) $(SEED)
	@fuzz/serve $(UNPROVED) $(REQUESTS) $(SEED)

# Proves the program, and times the jobs of a service.
bench: build
	crates/tmem/out/tmem bench

# Proves the program, and times it beside Redis, LMDB, SQLite, PostgreSQL and GHC's stm, in five minutes at most. bench/packages names
# the Debian packages that these need; one without them is left out. Leaves tables, all samples and plots in bench/out.
ROUNDS = 12

bench-peers: build
	@bench/compare crates/tmem/out/tmem --rounds $(ROUNDS)

# Breaks a store on three replicas in a round of each kind, made of SEED, with a program that is not proved, and looks that nothing is lost:
# some six minutes, as root. replicas/rounds names what it needs. Not part of make test, nor are replicas/variants, which shows that
# each precaution of tmem-attach is found missing, and replicas/messages, which has it say all that it can.
replicas:
	@replicas/rounds --look
	@$(MAKE) --no-print-directory $(UNPROVED)
	@replicas/rounds --program $(UNPROVED) --rounds 13 --seed $(SEED)

# Installs what `make build` left, or PROGRAM, below PREFIX, and all in DESTDIR where a package is made: the program, its man page,
# completion for bash and zsh, these documents with their plots, the notices of the libraries that it is linked with, the client in
# Python, which nothing compiles, tmem-attach, and beside the documents a unit of systemd for it. `make uninstall` removes them.
PREFIX = /usr/local
PROGRAM = crates/tmem/out/tmem
BIN = $(DESTDIR)$(PREFIX)/bin
SHARE = $(DESTDIR)$(PREFIX)/share
MAN = $(SHARE)/man/man1
BASH_COMPLETION = $(SHARE)/bash-completion/completions
ZSH_COMPLETION = $(SHARE)/zsh/site-functions
DOC = $(SHARE)/doc/tmem
CLIENT = $(SHARE)/tmem/python/tmem
DOCUMENTS = README.md CHANGELOG.md SECURITY.md $(wildcard LICENSE*)
PAGES = $(wildcard docs/*.md)
PLOTS = $(wildcard docs/plots/*.svg)
MODULES = $(wildcard clients/python/tmem/*.py)

install:
	@test -f "$(PROGRAM)" || { echo "There is no $(PROGRAM). 'make build' proves the program and leaves it there; PROGRAM=PATH installs another" >&2; exit 1; }
	install -d "$(BIN)" "$(MAN)" "$(BASH_COMPLETION)" "$(ZSH_COMPLETION)" "$(DOC)/docs/plots" "$(CLIENT)"
	install -m 755 "$(PROGRAM)" "$(BIN)/tmem"
	install -m 755 replicas/tmem-attach "$(BIN)"
	install -m 644 install/tmem.1 "$(MAN)"
	install -m 644 install/tmem.bash "$(BASH_COMPLETION)/tmem"
	install -m 644 install/_tmem "$(ZSH_COMPLETION)"
	install -m 644 $(DOCUMENTS) install/NOTICES replicas/tmem-hub.service "$(DOC)"
	install -m 644 $(PAGES) "$(DOC)/docs"
	install -m 644 $(PLOTS) "$(DOC)/docs/plots"
	install -m 644 $(MODULES) "$(CLIENT)"

# (a folder in which something else stands stays)
uninstall:
	rm -f "$(BIN)/tmem" "$(BIN)/tmem-attach" "$(MAN)/tmem.1" "$(BASH_COMPLETION)/tmem" "$(ZSH_COMPLETION)/_tmem"
	for name in NOTICES tmem-hub.service $(DOCUMENTS) $(PAGES) $(PLOTS); do rm -f "$(DOC)/$$name"; done
	for name in $(notdir $(MODULES)); do rm -f "$(CLIENT)/$$name"; done
	rm -rf "$(CLIENT)/__pycache__"
	for folder in "$(DOC)/docs/plots" "$(DOC)/docs" "$(DOC)" "$(CLIENT)" "$(SHARE)/tmem/python" "$(SHARE)/tmem"; do if test -d "$$folder"; then rmdir --ignore-fail-on-non-empty "$$folder"; fi; done

.DELETE_ON_ERROR:
.PHONY: run build test mutants fuzz bench bench-peers replicas install uninstall
