# Few words over the commands that do the work.
SHELL := bash
.SHELLFLAGS := -o pipefail -c
.PHONY: check test run bench dist install

# The gate, its words kept for `make dist`; a release wants ANEW=1 make check (docs/DECISIONS.md 179).
check:
	@{ echo "commit $$(git rev-parse HEAD)$$(git status --porcelain | sed -n "1s/.*/ changed/p")"; .ci/run; } 2>&1 | tee gate.log

# The tests of the second program and the tools, without a proof.
test:
	@python3 -B -m unittest discover -q -s tests

# The session program on a feed: make run FEED=examples/trip.txt
FEED ?= examples/case-5531.txt
run:
	@./run $(FEED)

# The archive against plain C.
bench:
	@bench/run

# The release in dist/, after `ANEW=1 make check` on the same commit.
dist:
	@tools/dist

# The C library with its header, pkg-config file and papers: make install [PREFIX=/usr/local] [DESTDIR=..]
install:
	@tools/build archive
	@$(MAKE) --no-print-directory -f release/Makefile install \
	    ARCHIVE=target/staticlib/libbuongilach.a PC_FILE=release/buongilach.pc.in
