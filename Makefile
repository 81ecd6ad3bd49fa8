PREFIX = /usr/local
FROM = utf-8
TO = utf-8
SECONDS = 60

.PHONY: help build c try run install uninstall clean lint check test generate plant example \
	definitions fuzz refused places hostile characters verdicts wheel deb dist

## Prints this list
help:
	@awk '/^### / { print "\n" substr($$0, 5) } /^## / { says = substr($$0, 4) } \
		/^[a-z]+:/ && says { sub(/:.*/, ""); printf "  make %-12s %s\n", $$0, says; says = "" }' Makefile

### To use it

# crates/recode_cli/out/recode_cli and crates/recode_places_cli/out/recode_places_cli, and the proofs of all that they
# stand on.
## Proves and builds the programs
build:
	@python3 tools/release/fresh.py recode_cli recode_cli rt run -- --version
	@python3 tools/release/fresh.py recode_places_cli recode_places_cli rt run -- --version

# out/c/libjillapun.a and out/c/libjillapun.so. Their header is include/jillapun.h.
## Proves and builds the library for C, static and shared
c:
	@python3 tools/release/c_library.py

# It is compiled in about a minute, also in a fresh clone.
## The program on standard input, from FROM to TO, without a proof
try:
	@cd crates/recode_cli && { rt try -- --from "$(FROM)" --to "$(TO)" --indexes "$(CURDIR)/indexes"; status=$$?; \
		echo "Nothing of this was proved. make build proves the program, and builds one that starts at once." >&2; \
		exit $$status; }

## The program on standard input, from FROM to TO, proved and built before if something has changed
run:
	@cd crates/recode_cli && rt run -- --from $(FROM) --to $(TO) --indexes $(CURDIR)/indexes

# The library for C comes with its header and its files for pkg-config; bash gets completions. No file is overwritten that an
# earlier `make install` has not put there.
## Installs programs, library for C, man pages and index texts below PREFIX
install: build c
	@python3 tools/release/install.py --prefix "$(PREFIX)" --destdir "$(DESTDIR)"

## Removes what make install has put there
uninstall:
	@python3 tools/release/install.py --remove --prefix "$(PREFIX)" --destdir "$(DESTDIR)"

## Removes what was built and proved in this clone
clean:
	@rm -rf out crates/*/out

### To change it

## Writes what is written from other files: lists of encodings, pages, header, man pages
generate:
	@python3 tools/generate_encodings.py
	@python3 tools/pages/reference.py
	@python3 tools/pages/theorem.py
	@python3 tools/pages/crates.py
	@python3 tools/pages/definitions_page.py
	@python3 tools/pages/c_header.py
	@python3 tools/pages/usage.py
	@python3 tools/pages/c_manual.py
	@python3 tools/pages/python_manual.py

# What tools/lint.py lists, and that each list of the encodings is as `make generate` would write it.
## Names, contracts, links and generated files, in seconds
lint:
	@python3 tools/lint.py
	@python3 tools/generate_encodings.py --check

## make lint, and the proofs of each crate
check: lint
	@cd crates && rt all check

# `make lint`, `rt ci`, and then what tools/gate/gate.py has of programs and of what is stored. One line at the end counts
# all.
## The merge gate
test: lint
	@python3 tools/gate/gate.py

# `rt plant` in each library, or in CRATE alone, some minutes each. It fails on a wrong body that is proved and that
# tools/known_gaps.txt does not list.
## Wrong bodies made by machine, which the contracts must refuse
plant:
	@python3 tools/plant.py $(CRATE)

# A codec more, and an encoding more, as docs/examples has them, each added to a copy of the last commit and proved there:
# a minute, and then a check of `encoding_front`.
## Adds a codec and an encoding to a copy
example:
	@python3 tools/release/example.py

### To try it hard: the gate does a part of each

# Every input of up to two bytes in each of the 40 encodings, every scalar to each output encoding, and longer inputs and
# whole jobs at random.
## The definitions of the theorem, run beside a plain program
definitions:
	@python3 tools/gate/compare_definitions.py --all

# By the program and by the libraries, against tools/oracles/plain_recode.py, a plain program: a difference is printed with
# its seed. (The two programs of cases are proved and built here; run in this place, they find no cases, and end with an
# error.)
## Random inputs, for SECONDS seconds, beside a plain program
fuzz: build
	@cd crates/test_encoding_cases && rt run > /dev/null 2>&1; test -x out/test_encoding_cases
	@cd crates/test_recode_cases && rt run > /dev/null 2>&1; test -x out/test_recode_cases
	@python3 tools/gate/fuzz.py seconds $(SECONDS)

# Of the program, and of calls of the libraries: `recode` must end with status 3 and say so; a call must return that fault,
# leave tables as they were, and succeed when made again. The first time 4 minutes of processor time after a build.
## Each request for memory refused in turn, and then all
refused: build
	@cd crates/test_refusals && rt run > /dev/null
	@python3 tools/gate/refused_memory.py

## recode-places on the logs of runs, beside a plain program
places: build
	@python3 tools/gate/places.py

# A table of command lines, index texts that no one publishes, and streams that are closed, full, slow, abandoned or 4 GiB
# long: status, output and log as the man page says. Half a minute after a build. The gate does this but for the 4 GiB.
## Hostile command lines, index texts and streams
hostile: build
	@python3 tools/gate/command_lines.py
	@python3 tools/gate/hostile_indexes.py
	@python3 tools/gate/hostile_streams.py

# Proves and builds a program that reads the index texts. `rt run` runs it in its crate's folder, which has none, so the
# status counts if it was not run at all.
built = cd crates/$(1) && mkdir -p out && { rt run > /dev/null 2> out/built.txt || \
	grep -q '^rt: running' out/built.txt || { cat out/built.txt; false; }; }

# Against tools/oracles/characters.py, a plain program over the same index texts. This needs bash, and takes minutes.
## Every character in every encoding, written and read again
characters: SHELL = bash
characters:
	@$(call built,test_index_files)
	@cd indexes && diff <(python3 $(CURDIR)/tools/oracles/characters.py . all) \
		<($(CURDIR)/crates/test_index_files/out/test_index_files all | sed -n '/ reads: /,$$p')

# As a run reports it, against what tools/oracles/characters.py makes of it. This needs bash, and takes minutes: the plain
# program alone 2 to 3 of processor time.
## Whether each character is kept as a text of its own, in every encoding
verdicts: SHELL = bash
verdicts:
	@$(call built,test_recode_cases)
	@cd indexes && for name in $$(python3 $(CURDIR)/tools/oracles/characters.py . names); do \
		diff <(python3 $(CURDIR)/tools/oracles/characters.py . verdicts 1 $$name) \
			<($(CURDIR)/crates/test_recode_cases/out/test_recode_cases 1 $$name) || exit 1; \
	done

### To hand it on

# In out, with the library and the index texts, for `pip install`. It needs Python's setuptools and wheel.
## The Python package
wheel: c
	@python3 tools/release/python_wheel.py

# In out/debian, by its `dpkg-deb`.
## Packages for Debian
deb: build c
	@python3 tools/release/debian.py

# In out: what make install installs, the Python module, a wheel if there is one, and the licences.
## An archive for machines without rt
dist: build c
	@python3 tools/release/install.py --archive
