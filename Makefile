# Each target works on a fresh checkout with nothing built, says at once how long it may take, and keeps a log in bin/.

.PHONY: build build-procmail build-lockfile build-formail build-stat build-check build-explain build-test \
	build-cases install uninstall dist deb demo test cases try bench plots promise layers check bugs clean

build: build-procmail build-lockfile build-formail build-stat build-check build-explain build-test

# A program of bin/, built once its crates are proved, several at a time.
build-procmail:
	@bash .ci/build procmail

build-lockfile:
	@bash .ci/build lockfile

build-formail:
	@bash .ci/build formail

build-stat:
	@bash .ci/build procmail-stat

build-check:
	@bash .ci/build procmail-check

build-explain:
	@bash .ci/build procmail-explain

build-test:
	@bash .ci/build procmail-test

# The program that runs the cases of tests/cases, and does what three scripts of bench/ measure.
build-cases:
	@bash .ci/build run_cases

# Where make install puts the programs, pages, documents, examples and completions: below PREFIX, and all of that below
# DESTDIR, for packages. BINDIR, MANDIR and DOCDIR name single places.
PREFIX = /usr/local
DESTDIR =
# The directory that has the programs, for install and test.
BIN = bin
PLACES = PREFIX="$(PREFIX)" DESTDIR="$(DESTDIR)" BINDIR="$(BINDIR)" MANDIR="$(MANDIR)" DOCDIR="$(DOCDIR)" BIN="$(BIN)"

# The programs of BIN are installed, and nothing is built. No program is set-user-ID: each runs as the user who starts it.
install:
	@sh ./install.sh $(PLACES)

# The same files are removed, and the directories that were made for them.
uninstall:
	@sh ./install.sh --uninstall $(PLACES)

# dist/procmail-proved-VERSION-x86_64-linux.tar.gz: what users install without the toolchain.
dist:
	@bash .ci/dist

# dist/procmail-proved_VERSION_amd64.deb, of the same archive.
deb: dist
	@bash .ci/deb

# The example message goes where the example rcfile says, in a fresh directory.
demo:
	@[ -x bin/procmail ] || $(MAKE) -s build-procmail
	@echo "Delivering examples/message by examples/copies.rc into a fresh directory, which then has these files and this mail:"
	@folder=$$(mktemp -d) && cp examples/copies.rc $$folder/rc && cd $$folder && \
	    $(CURDIR)/bin/procmail ./rc < $(CURDIR)/examples/message && ls && cat mbox && cmp mbox archive-mbox; \
	    status=$$?; rm -rf $$folder; exit $$status

# The scripts and cases of tests/, by the programs of BIN, in some minutes and without rt. NAMES are scripts; none are all.
test:
	@BIN="$(BIN)" bash tests/run $(NAMES)

# Every file of cases, or those that NAME names.
cases:
	@bash tests/cases.sh $(NAME)

# A file of cases on code that isn't proved, in two to four minutes: make try NAME=locks
try:
	@bash tests/try $(NAME)

# How long searches and the reading of rcfiles take, what a delivery and a trial cost, and formail beside formail 3.22.
# It isn't part of the check.
bench:
	@bash bench/egrep.sh
	@bash bench/rcfiles.sh
	@bash bench/deliver.sh
	@python3 bench/large.py
	@bash bench/conditions.sh
	@bash bench/recipes.sh
	@bash bench/programs.sh
	@bash bench/trial.sh
	@bash bench/formail.sh
	@bash bench/explain.sh
	@bash bench/grow.sh

# bench/plots/*.svg, drawn by gnuplot from the data beside them, which bench/measure.sh writes.
plots:
	@bash bench/plot.sh

# The definitions that the three promises rest on, as a reading list: docs/PROMISE_LIST.md. It needs python3, and no proof.
promise:
	@python3 .ci/promise_list > docs/.PROMISE_LIST.md && mv docs/.PROMISE_LIST.md docs/PROMISE_LIST.md
	@sed -n '/^| Promise/,/^$$/p' docs/PROMISE_LIST.md

# The crates and what each is for: docs/LAYERS.md, and docs/layers.svg, which needs python3.
layers:
	@bash .ci/layers > docs/.LAYERS.md && mv docs/.LAYERS.md docs/LAYERS.md
	@python3 .ci/layers_picture > docs/.layers.svg && mv docs/.layers.svg docs/layers.svg

# The public calls of each crate, with the names of their clauses: docs/SURFACE.md, which needs python3.
.PHONY: surface
surface:
	@python3 .ci/surface > docs/.SURFACE.md && mv docs/.SURFACE.md docs/SURFACE.md

# The merge gate.
check:
	@mkdir -p bin
	@echo "Every proof, must-fail edit, test and stored run, and then the scripts on real files: an hour or more on four"
	@echo "processors where all is proved from nothing. The log is bin/check.log."
	@bash .ci/watch bin/check.log "$$(grep -c '^[a-z]' crates.txt)" bash .ci/run; status=$$?; \
	    sed -n '/^rt ci took/,$$p' bin/check.log; exit $$status

# The known wrong bodies beyond those of the gate. It isn't part of the check.
bugs:
	@bash bugs/run

clean:
	rm -rf bin dist crates/*/out
