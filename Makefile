# make run: document 01's whole case through the program `hits`; make run CASE=folder: the ten files of another folder.
# (rt run proves and builds the program, and runs it in crates/hits, where no files lie: that answer is let go.)
# make test: the gate. It needs the Rust source, ../shared/docs/src; make test-without-source runs all that does not, and
# its last lines say which tests were left out and why.
# make names: the gate's first step alone, whether the names in README.md and docs still exist.
CASE ?= crates/hits/data

.PHONY: run test test-without-source names
run:
	cd crates/hits && rt run >/dev/null
	cd $(CASE) && $(CURDIR)/crates/hits/out/hits

test:
	bash .ci/run

test-without-source:
	bash .ci/run --without-source

names:
	python3 tools/names.py
	python3 tools/names.py --try
