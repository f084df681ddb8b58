# The two commands of the README, `make run` and `make test`, and all other targets: `make help` lists them.

# The script that `make run` and `make try` run. Its ending says what kind it is: a script of statements (NAME.replay), one whose sessions run on
# threads (NAME.run), one of a scoped lock (NAME.scoped.lock), or one of an object lock (NAME.lock). OPTIONS=--scoped makes a lock script one of a
# scoped lock whatever its ending. With SUBCOMMAND=replay, SUBCOMMAND=run or SUBCOMMAND=lock any ending will do. OPTIONS="--patience 5 --cache 1"
# sets the patience of a run on threads, and the size of its sessions' caches.
SCRIPT = crates/mdlsim/stdin
SUBCOMMAND = $(if $(filter %.replay,$(SCRIPT)),replay,$(if $(filter %.run,$(SCRIPT)),run,lock))
OPTIONS = $(if $(filter %.scoped.lock,$(SCRIPT)),--scoped)

# Where `make install` puts the programs, their manual pages and completions, and the libraries for C.
PREFIX = /usr/local

# The programs that `make dist` packs. Each has a manual page, docs/NAME.1, and `--version`.
PROGRAMS = mdlsim mdlview

PROGRAM = crates/mdlsim/out/mdlsim
VIEW = crates/mdlview/out/mdlview

# The libraries for C. `make install` and `make dist` include them.
ARCHIVES = crates/mdl_c/out/libmdl_c.a crates/mdl_text/out/libmdl_text.a

# How many seconds each part of `make fuzz` runs. SEED=N sets the seed of its scripts, which is random otherwise. MDLSIM=PATH and MDLVIEW=PATH name other
# programs to test.
SECONDS = 60

# Where `make pages` puts the example scripts as pages.
PAGES = dist/pages

# This file exists once `make run` has printed answers.
FIRST_RUN = crates/mdlsim/out/first_run

.PHONY: help run try script test layout docs bench examples commands c fuzz pages growths race wrong build view install archives dist dist-check \
    dist-libraries dist-libraries-check clean kit timers

help:
	@echo 'All need the Rattle kit, except fuzz, pages, dist-check and clean.'
	@echo
	@echo 'make run [SCRIPT=FILE]     proves and builds mdlsim, and prints its answers to NAME.replay, NAME.run, NAME.lock or NAME.scoped.lock'
	@echo 'make try [SCRIPT=FILE]     prints the answers without the proof, in one to four minutes; up to 1 MB of them, and 60 seconds of play'
	@echo 'make try SUBCOMMAND=matrix prints which modes clash and who waits behind whom, without the proof'
	@echo 'make build                 proves and builds mdlsim'
	@echo 'make view                  proves and builds mdlview'
	@echo 'make install [PREFIX=DIR]  builds the programs and the libraries for C, proved, and installs them, the programs with their commit'
	@echo 'make archives [PREFIX=DIR] does the same with the libraries for C alone'
	@echo
	@echo 'make test                  the gate: proves everything from nothing, and runs all tests'
	@echo 'make layout                reports files that the formatter would change, and mutants that fit no file'
	@echo 'make docs                  reports what is stale in the pages'
	@echo 'make examples              compares the answers to each example with those that lie beside it'
	@echo 'make commands              checks what the proved programs do by their command lines'
	@echo 'make c                     builds programs of C, C++, Rust, Python and Go over the libraries for C, proved, and compares what they print'
	@echo 'make fuzz [SECONDS=60]     gives random scripts, rows and noise to the programs that were built last, and checks each run'
	@echo 'make pages [MDLVIEW=PATH]  prints the example scripts as pages for a browser, into dist/pages/'
	@echo 'make growths               refuses each growth of some short lives in turn'
	@echo 'make race                  lets threads race until a million waits are settled'
	@echo 'make wrong [CRATE=NAME]    has the prover refuse the mutants, of all crates or of one'
	@echo 'make bench                 times scripts and calls, and draws charts of the figures'
	@echo
	@echo 'make dist                  packs the programs and the libraries for C that were built last, for machines without the kit, into dist/'
	@echo 'make dist-check            unpacks that into an empty folder, and tries it there without the kit; with the kit it packs again, and compares'
	@echo 'make dist-libraries        packs the libraries that were proved last, for checkouts that are to trust them, into dist/'
	@echo 'make dist-libraries-check  unpacks those in a new clone, and builds mdlsim there'
	@echo 'make clean                 removes what was built or packed, and what the prover keeps for its next check'

# Builds mdlsim, proved, and prints its answers to the script. The first time, a line on standard error says what to run next.
run: script build
	@$(PROGRAM) $(SUBCOMMAND) $(OPTIONS) < "$(SCRIPT)"
	@test -e $(FIRST_RUN) || { touch $(FIRST_RUN); echo 'next: $(PROGRAM) replay < examples/alter_stops_a_table.replay' >&2; }

# Builds mdlsim without the proof, and prints its answers to the script. Two lines on standard error say so, and state its limits.
try: script kit
	@sh make/try.sh "$(SCRIPT)" $(SUBCOMMAND) $(OPTIONS)

# Checks before the build what would otherwise fail after it: the subcommand exists, the script can be read, and its ending says what kind it is.
script:
	@case "$(SUBCOMMAND)" in replay | explain | run | lock | matrix) ;; *) echo "there is no $(SUBCOMMAND): SUBCOMMAND is replay, explain, run, lock or matrix" >&2; exit 1 ;; esac
	@{ test -r "$(SCRIPT)" && test ! -d "$(SCRIPT)"; } || { echo "$(SCRIPT) isn't there, or can't be read" >&2; exit 1; }
	@case "$(origin SUBCOMMAND) $(SCRIPT)" in "command line "* | "file crates/mdlsim/stdin" | *.lock | *.replay | *.run) ;; \
	*) echo "$(SCRIPT): a script ends with .lock, .replay or .run" >&2; exit 1 ;; esac

# The gate checks that the files are laid out as they should be and that the docs agree with the tree, proves and tests everything from nothing, and has
# the prover refuse the mutants (except some of those that `make wrong` tries). Then it checks the answers to the examples, the programs' command
# lines, random scripts, the programs of C, and that refused growths lose nothing (every thirty-seventh; `make growths` refuses each). At the end it
# says what this machine can't check, as without gcc. With GATE_STRICT=1 it fails then.
test: layout docs
	@sh make/gate.sh

# Reports at once what the gate would refuse of the files' layout and of the mutants.
layout: kit
	@sh make/check_layout.sh

# Checks that the docs name only what exists, and all that they have to name (`sh make/check_docs.sh update` makes what is made from the tree),
# that each library crate shows its example (`sh make/check_examples.sh update` puts it there), and that the version is the same in all places.
docs: kit
	@sh make/check_docs.sh
	@sh make/check_examples.sh
	@sh make/check_version.sh

# Measures the lines per second and peak memory of scripts of three sizes, of one lock and of statements; the cost of calls, on one thread and on four,
# each beside what it is compared with; the instructions of a pair of calls; and the cost of the locks of C and Rust. mdlview is timed if it is built.
# Puts the figures and charts of the run into bench/peers/out.
bench: timers build
	@sh make/build.sh mdl_bench quick
	@sh bench/peers.sh $(PROGRAM)

# Checks that each example gives the answers in the file beside it.
examples: kit
	@sh examples/check.sh

# Checks that the programs do what their command lines ask for, and that they report what they can't do, bad lines, and streams that fail.
commands: build view
	@python3 commands/check.py $(PROGRAM)
	@python3 commands/check_view.py $(VIEW)

# Checks that the programs of examples/c, examples/cpp, examples/rust, examples/python and examples/go give their answers, with the proved libraries for
# C. It says what it leaves out, as all without gcc.
c: kit
	@sh make/c.sh

# Gives random scripts, rows and noise to the programs that were built last, and checks each run. Scripts and rows that fail are kept in fuzz/out/.
fuzz:
	@sh make/needs.sh python3
	@python3 fuzz/fuzz.py --seconds $(SECONDS) $(if $(SEED),--seed $(SEED)) $(or $(MDLSIM),$(PROGRAM))
	@test -x $(or $(MDLVIEW),$(VIEW)) || { echo "$(or $(MDLVIEW),$(VIEW)) isn't there: make view, or MDLVIEW=PATH" >&2; exit 1; }
	@python3 fuzz/views.py --seconds $(SECONDS) $(if $(SEED),--seed $(SEED)) $(or $(MDLVIEW),$(VIEW))
	@python3 fuzz/timelines.py --seconds $(SECONDS) $(if $(SEED),--seed $(SEED)) --mdlsim $(or $(MDLSIM),$(PROGRAM)) $(or $(MDLVIEW),$(VIEW))
	@python3 fuzz/noise.py --seconds $(SECONDS) $(if $(SEED),--seed $(SEED)) --mdlsim $(or $(MDLSIM),$(PROGRAM)) $(or $(MDLVIEW),$(VIEW))

# Prints the scripts of examples/ as pages, with an index of them, by the mdlview that was built last, or that MDLVIEW names.
pages:
	@sh make/pages.sh "$(or $(MDLVIEW),$(VIEW))" "$(PAGES)"

# Refuses each allocation of some short sequences of calls in turn: they have to succeed all the same. Runs on threads have to report a refused one.
growths: kit
	@sh growths/check.sh

# Lets threads race for locks until a million waits are settled, where the gate has 20,000.
race: kit
	@sh make/race.sh

# Has the prover refuse the mutants: all, or with CRATE=NAME those of one crate. It uses the libraries below the crate as they were built last.
wrong: kit
	@python3 make/wrong_bodies.py $(CRATE)

# Proves mdlsim and the crates that it depends on, and builds it.
build: kit
	@sh make/build.sh mdlsim lock

# Does the same for mdlview.
view: kit
	@sh make/build.sh mdlview why --script

install: build view
	@python3 make/archive.py
	@sh make/lay_out.sh "$(PREFIX)" $(PROGRAMS)
	@sh make/lay_out_c.sh "$(PREFIX)"

# Builds the libraries for C, proved, and installs them.
archives: kit
	@python3 make/archive.py
	@sh make/lay_out_c.sh "$(PREFIX)"

# Packs what was built last, and builds only what is missing. After `make test` it packs the programs and the libraries that the gate proved. Packing twice
# gives the same bytes. SOURCE_DATE_EPOCH sets the time of all files, which is otherwise the commit's.
dist: kit
	@sh make/needs.sh awk cmp tar gzip sha256sum readelf
	@test -x $(PROGRAM) || sh make/build.sh mdlsim lock
	@test -x $(VIEW) || sh make/build.sh mdlview why --script
	@for archive in $(ARCHIVES); do test -e "$$archive" || python3 make/archive.py || exit 1; done
	@sh make/dist.sh $(PROGRAMS)

dist-check:
	@sh make/dist_check.sh $(PROGRAMS)

# Packs the proved libraries that the programs depend on, for users of the same kit who don't want to wait for their proofs.
dist-libraries: kit
	@sh make/dist_libraries.sh pack $(PROGRAMS)

dist-libraries-check: kit
	@sh make/dist_libraries.sh check $(PROGRAMS)

clean:
	@rm -rf crates/*/out bench/peers/out examples/rust/target fuzz/out dist

kit:
	@sh make/needs.sh rt python3

# What `make bench` needs beside the kit.
timers: kit
	@sh make/needs.sh awk /usr/bin/time
