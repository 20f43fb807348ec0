# make            builds the program (a clean clone is proved first, which takes some 40 minutes on 4 cores)
# make install    copies the program, man pages, units, examples and documents below DESTDIR PREFIX, and builds nothing
# make uninstall  removes what make install copied there (PREFIX is /usr/local, DESTDIR empty unless they are given)
# make dist       packs these into out/kmipctl-VERSION-ARCH.tar.gz, with their sums (needs python3)
# make deb        packs them into out/kmipctl_VERSION_ARCH.deb (needs python3, dpkg-deb)
# make demo       carries out a plan over a network that loses a reply (by rt try where nothing is built)
# make check      proves each crate that changed since the last commit, or since the revision SINCE, and runs its tests
# make fmt        lays out the files of all crates
# make test       the gate: every proof, the wrong bodies, the tests, the rows, and then all trials but bench
# make rows       runs the rows without a proof; with CRATE=, FILE=, NAME= some (by rt try where nothing is built)
# make bench      sets it beside plain Rust, also over sockets; times commands; counts allocations, instructions (needs rustc)
# make refuse     refuses each growth of memory of the program and of test_memory in turn (needs cc, python3)
# make faults     gives the program plans with each fault, and wants the line that says where and why (needs python3)
# make largest    carries out 1,000 keys with the longest names and identifiers, in text and in JSON (needs python3)
# make hostile    gives the program lines of ten megabytes, under limits of memory
# make storm      carries 200 plans, by up to four runs at once, over a network that loses and cuts; kills, looks, refreshes, probes (needs rustc)
# make peers      runs it against peers that answer nothing, rubbish or too late (needs python3)
# make turns      lets several clients at once talk to it, some of which stall, close or read nothing (needs python3)
# make troubles   runs it against servers that give trouble, and compares what it tells of that (needs python3)
# make origin     runs it on progress files that were saved against other servers, or for other keys (needs python3)
# make refreshed  runs it with --refresh against servers that have lost keys, or were exchanged (needs python3)
# make causes     runs it where files, sockets and standard streams fail, and compares what it tells (needs python3)
# make reports    reads what each command prints with --json by another reader (needs python3)
# make completions  lets bash, zsh and fish complete command lines by its scripts (needs python3; zsh, fish if there)
# make installed  installs it into a scratch folder, and carries out a timer's day there (needs python3)
# make tls        carries a plan out over TLS between two tunnels, with client certificates (needs openssl, stunnel)
# make pykmip     probes PyKMIP's engine, and carries a plan out against it (needs python3-pykmip of Debian)
# make reading    lists the public functions; with FUNCTION=crate::name [CLAUSE=name], what they rest on (needs python3)
# make reference  writes a page for each crate to out/reference, and what exercises its calls (needs python3)
# make man        writes docs/man, from the help texts of the program and OPERATING and PROFILE (needs python3)
# make layers     writes the layers and the table of crates of docs/ARCHITECTURE.md (needs python3)
# make examples   runs each example of README.md and docs/ with the program that is built (needs python3)
# make documents  compares documents and man pages with the code, and looks at links, sentences, sizes (needs python3)
# make tools      runs the tests of the tools (needs python3)
# make help       prints these lines

program := crates/kmipctl/out/kmipctl
PREFIX = /usr/local
DESTDIR =
growths := crates/test_memory/out/test_memory
# Proves and builds the program, and notes from which sources (tools/proved.sh). If these change meanwhile, it is old.
prove = { echo 'Proving and building kmipctl: from a clean clone this takes some 40 minutes on 4 cores.' >&2; \
	sum=$$(tools/proved.sh sources) && python3 tools/building.py && touch $(program) && \
	{ tools/proved.sh note $(program) "$$sum" || { touch -d @0 $(program); false; }; }; }
sources := crates.txt $(shell find crates -name out -prune -o \( -name '*.rt' -o -name '*.antt' \) -print)

.PHONY: all install uninstall dist deb demo check fmt test rows bench refuse faults largest hostile storm peers turns troubles origin refreshed causes reports completions installed tls pykmip reading reference man layers examples documents tools help

all: $(program)
	@tools/proved.sh check $(program) || $(prove)

$(program): $(sources)
	@$(prove)

$(growths): $(sources)
	@cd crates/test_memory && rt run </dev/null >/dev/null
	@touch $@

install:
	@tools/install.sh install '$(program)' '$(PREFIX)' '$(DESTDIR)'

uninstall:
	@tools/install.sh uninstall '$(PREFIX)' '$(DESTDIR)'

dist:
	@python3 tools/package.py dist '$(program)'

deb:
	@python3 tools/package.py deb '$(program)'

demo:
	@examples/demo.sh $(program)

check:
	@python3 tools/changed.py check $(SINCE)

fmt:
	@python3 tools/changed.py fmt

test:
	@python3 tools/gate.py

rows:
	@python3 tools/rows.py $(if $(CRATE),--crate $(CRATE)) $(if $(FILE),--file $(FILE)) $(if $(NAME),--name $(NAME))

bench: $(program)
	@bench/bench.sh $(program)

refuse: $(program) $(growths)
	@python3 bench/refuse.py $(program) $(growths) out/refuse

faults: $(program)
	@python3 bench/plan_faults.py $(program) out/faults

largest: $(program)
	@python3 bench/largest.py $(program) out/largest

hostile: $(program)
	@bench/hostile.sh $(program)

storm: $(program)
	@bench/storm.sh $(program)

peers: $(program)
	@python3 bench/peers.py $(program) out/peers

turns: $(program)
	@python3 bench/turns.py $(program)

troubles: $(program)
	@python3 bench/troubles.py $(program) out/troubles

origin: $(program)
	@python3 bench/origin.py $(program) out/origin

refreshed: $(program)
	@python3 bench/refreshed.py $(program) out/refreshed

causes: $(program)
	@python3 bench/causes.py $(program) out/causes

reports: $(program)
	@python3 bench/reports.py $(program) out/reports

completions: $(program)
	@python3 bench/completions.py $(program) out/completions

installed: $(program)
	@bench/install.sh $(program) out/installed

tls: $(program)
	@examples/tls/tls.sh $(program)

pykmip: $(program)
	@python3 bench/pykmip.py $(program) out/pykmip

reading:
	@python3 tools/reading.py $(FUNCTION) $(CLAUSE)

reference:
	@python3 tools/reference.py

man:
	@python3 tools/man_pages.py

layers:
	@python3 tools/layers.py

examples: $(program)
	@python3 tools/examples.py $(program)

documents:
	@python3 tools/reading.py --check

tools:
	@python3 -B -m unittest discover tools/tests

help:
	@sed -n 's/^# make/make/p' Makefile
