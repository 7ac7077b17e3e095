# The three commands of the README, `page`, which docs/TOUR.md shows, and `edits`, which edits/README.md
# describes. They want the toolchain's command `rt`, and bash; `page` wants python3.

PROGRAM := build/gobase
SCRIPT := scripts/joseki.script

# The folder that the script imports, file by file, for the trial run.
GAMES := $(wildcard games/*.sgf)

# The programs that answer worked examples, or those of them that are named.
CASES := $(notdir $(wildcard crates/*_cases))

.PHONY: run build page test cases edits

# Answers the script over the sample games, by the native program where it is there, else by a run without
# a proof, which works on copies of the games and tells on standard error how it ended.
run:
	@if [ -x $(PROGRAM) ]; then \
	    $(PROGRAM) < $(SCRIPT); \
	else \
	    (cd crates/gobase && rt try $(foreach game,$(GAMES),--data $(game)=../../$(game))) < $(SCRIPT); \
	fi

# Proves what isn't proved yet of the program and the crates that it stands on, as many crates side by side
# as there are processors, and leaves the native program.
build:
	cd crates/gobase && rt all check --jobs $(shell nproc) && rt run </dev/null
	mkdir -p build
	cp crates/gobase/out/gobase $(PROGRAM)

# A page of HTML for each sample script, in build/pages/: its answers as boards to look at.
page:
	@[ -x $(PROGRAM) ] || { echo "make page wants $(PROGRAM): make build makes it" >&2; exit 2; }
	@mkdir -p build/pages
	@for script in scripts/*.script; do \
	    python3 tools/page.py --program $(PROGRAM) $$script > build/pages/$$(basename $$script .script).html || exit 1; \
	done

# The gate: every proof, every worked example and test, every edit of must-fail/, and the stored run of the
# program.
test:
	@bash .ci/run

# The worked examples, by programs that aren't proved.
cases:
	@for program in $(CASES); do \
	    (cd crates/$$program && rt try --seconds 900 $$(sed 's,.*,--data &=data/&,' args) -- $$(cat args)) || exit 1; \
	done

# The edits that the gate leaves out: of all crates, or of those that CRATES names.
edits:
	@bash tools/try_edits.sh $(CRATES)
