# `make help` prints the targets: the lines below that begin with ##, and the text after ## of each target.

PREFIX = /usr/local
MINUTES = 60

.PHONY: all try run packing kinds why dap embed test names lint check gate page-test cluster cluster-hard models hostile
.PHONY: soak bench fast try-compiler install uninstall dist dist-same clean help

## Build, with every proof
all: ## the program, at bin/vjobs; crates that don't use each other are proved side by side
	.ci/prove vjobs
	mkdir -p bin
	cp crates/vjobs/out/vjobs bin/vjobs
	.ci/stamp proved bin/vjobs

run: all ## the same, and runs the example sum_of_two
	bin/vjobs examples/sum_of_two.vcode

packing: ## bin/vjobs-pack and bin/vjobs-split: the programs that join files and cut reports
	.ci/prove vjobs_pack vjobs_split
	mkdir -p bin
	cp crates/vjobs_pack/out/vjobs_pack bin/vjobs-pack
	cp crates/vjobs_split/out/vjobs_split bin/vjobs-split
	.ci/stamp proved bin/vjobs-pack bin/vjobs-split

kinds: ## bin/vjobs-kinds: the program that finds signatures, for code or in a batch
	.ci/prove vjobs_kinds
	mkdir -p bin
	cp crates/vjobs_kinds/out/vjobs_kinds bin/vjobs-kinds
	.ci/stamp proved bin/vjobs-kinds

why: ## bin/vjobs-why: the program that shows why a job ended
	.ci/prove vjobs_why
	mkdir -p bin
	cp crates/vjobs_why/out/vjobs_why bin/vjobs-why
	.ci/stamp proved bin/vjobs-why

dap: ## bin/vjobs-dap: the program by which an editor goes forward and back over a job
	.ci/prove vjobs_dap
	mkdir -p bin
	cp crates/vjobs_dap/out/vjobs_dap bin/vjobs-dap
	.ci/stamp proved bin/vjobs-dap

embed: ## bin/libvjobs.a and .so for other languages; compares what embed/ prints with the reports
	.ci/prove vjobs_embed
	.ci/embed
	if [ -f bin/libvjobs.so ]; then .ci/stamp proved bin/libvjobs.so; fi

## Build, without proofs
try: ## the program, and runs the example sum_of_two
	@echo "Built without proofs: nothing that this program does is proved."
	cd crates/vjobs && rt try -- - < ../../examples/sum_of_two.vcode

fast: ## CRATE=name: a program, optimised, at bin/unproved/name, to measure a form before its proof
	mkdir -p bin/unproved
	.ci/fast $(CRATE) bin/unproved/$(CRATE)
	.ci/stamp unproved bin/unproved/$(CRATE)

## Try
try-compiler: ## PROGRAM=name SIZE=n: compiles a program of examples/compiler, and shows its result and its lines
	python3 -B examples/compiler/run.py $(or $(PROGRAM),quicksort) $(SIZE)

## Check
test: ## all tests, tables and examples, unproved; WITHIN=180: as far as they come in 180 seconds
	.ci/try $(if $(WITHIN),--within $(WITHIN))
	python3 -B bench/compiling.py --check
	python3 -B tests/compiler/compare.py 200

names: ## that each name exists that pages, comments and wrong bodies use; what pages say of contracts
	.ci/names
	.ci/claims

lint: ## the Python programs, by the linter that is there
	.ci/lint

check: ## CRATE=name: proves one crate and runs its tests
	.ci/check $(CRATE)

gate: ## every proof from nothing, the wrong bodies to be refused, all tests, tables and examples
	RT_JOBS=$$(python3 -B .ci/side_by_side.py) rt ci

## Check, outside the gate
page-test: ## pages of bin/vjobs-why in a browser; pictures in bin/page; as root it installs chromium
	.ci/page

cluster: ## vjobs-spread on a Slurm of three nodes and GNU parallel, with faults; VJOBS_PROGRAMS=folder
	.ci/cluster

cluster-hard: ## the same with 1,000 files, cut cables, dead hosts and killed daemons, as root
	python3 -B tests/cluster/hard.py

models: all packing kinds ## the programs beside the rules in Python, on random cases, files and names
	.ci/prove worked_texts worked_vectors worked_regions worked_batches
	python3 models/examples.py
	python3 models/packing.py bin/vjobs bin/vjobs-pack bin/vjobs-split
	python3 models/signatures.py bin/vjobs-kinds bin/vjobs
	python3 models/names.py bin/vjobs bin/vjobs-kinds
	python3 models/compare.py
	python3 -B tests/compiler/compare.py 2000
	python3 -B tests/compiler/examples.py

hostile: all packing kinds why ## MINUTES=60: attacks of strangers, then batches changed at random beside the rules
	python3 models/attacks.py bin/vjobs bin/vjobs-pack bin/vjobs-split bin/vjobs-kinds bin/vjobs-why
	python3 models/hostile.py $(MINUTES)

soak: all ## batches on 1 to 16 workers or lanes for an hour, up to the first report that differs
	python3 bench/soak.py 60

bench: all ## times of reading, steps, workers, lanes, instructions beside plain C, memory and the verifier
	python3 bench/reading.py
	python3 bench/steps.py
	python3 bench/workers.py
	python3 bench/lanes.py
	python3 bench/processes.py
	python3 bench/admission.py
	python3 bench/ops.py
	python3 bench/memory.py
	python3 bench/kinds.py
	python3 bench/compiling.py

## Deliver
install: bin/vjobs ## PREFIX=/usr/local: what was built, the man pages, the pages and the examples
	.ci/install "$(DESTDIR)$(PREFIX)"

uninstall: ## PREFIX=/usr/local: removes what make install has installed there
	.ci/uninstall "$(DESTDIR)$(PREFIX)"

dist: bin/vjobs ## LOG=FILE: packs the same into bin/vjobs-COMMIT.tar.gz; FILE is the output of make gate
	.ci/dist "$(LOG)"

dist-same: bin/vjobs ## LOG=FILE TARBALL=FILE: compares a tarball with what make dist would pack
	.ci/dist "$(LOG)" "$(TARBALL)"

bin/vjobs:
	$(MAKE) all

## Other
clean: ## removes bin, and what the crates keep of their proofs and builds
	rm -rf bin crates/*/out

help: ## prints this
	@awk -F ' ?## ' '/^## / { print "\n" substr($$0, 4) } \
	    /^[a-z-]+:.*## / { sub(/:.*/, "", $$1); printf "  make %-13s %s\n", $$1, $$2 }' Makefile
