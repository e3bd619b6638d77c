# make test       the whole gate: proofs, must-fail edits, tests, programs
# make trial      compiles the program without proofs, once, and prints where it is: minutes; CHECKS=yes makes one with run-time checks
# make build      proves and builds the program, and prints where it is: hours the first time
# make install    puts the proved program, else the trial build, with tools, man page, completions and schema below PREFIX, which is
#                 /usr/local where none is named; DESTDIR=FOLDER puts FOLDER before it
# make uninstall  removes what 'make install' put there, with the same PREFIX and DESTDIR
# make demo       runs an example (EXAMPLE=first; two-links where none is named), and says whether what ran was the proved build
# make examples   runs all examples and compares everything they write with what is expected (EXAMPLES="loss ring" for some)
# make runs       compares the built program, and examples/reference.py, with the stored runs (crates/mn_stored_runs), in seconds
# make tools      tests the tools, the scripts, the schema, the man page and the completions, and has tshark decode the examples' runs
# make index      shows that all that docs/INDEX.md names is there, that it has every rule, and that its table of RFCs, docs/PROVED.md, the
#                 pictures of the README and of crates/README.md, and the crates above in CONTRIBUTING, are as they are made; and that
#                 no count of scripts/readable is over its limit, and no function without a clause but those that scripts/free lets
# make clean      removes what was built

.PHONY: test trial build install uninstall demo examples runs tools index clean

PREFIX = /usr/local

test:
	rt ci

trial:
	@python3 -B scripts/trial $(if $(filter yes,$(CHECKS)),--checks)

build:
	@python3 -B scripts/build

install:
	@python3 -B scripts/install --prefix '$(PREFIX)' --destdir '$(DESTDIR)'

uninstall:
	@python3 -B scripts/install --prefix '$(PREFIX)' --destdir '$(DESTDIR)' --remove

demo:
	@sh scripts/demo $(EXAMPLE)

examples:
	@python3 -B scripts/examples $(EXAMPLES)

runs:
	@python3 -B scripts/compare

tools:
	@python3 -B -m unittest discover -q -s tools/tests
	@tools/mplsnet-decode $(patsubst %/journal.txt,%,$(wildcard examples/*/expected/journal.txt)) || [ $$? = 3 ]

index:
	@python3 -B scripts/index
	@python3 -B scripts/proved --check
	@python3 -B scripts/layers --check
	@python3 -B scripts/above --check
	@python3 -B scripts/readable
	@python3 -B scripts/free
	@sh scripts/picture --check

clean:
	@python3 -B scripts/clean
