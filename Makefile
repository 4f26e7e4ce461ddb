SHELL = /bin/bash

# The programs that `make test` proves and leaves behind.
RUN = crates/board_run/out/board_run
SNAPSHOT = crates/board_snapshot_run/out/board_snapshot_run
WATCH = crates/board_watch_run/out/board_watch_run
CHECK = crates/board_check_run/out/board_check_run
BENCH = crates/board_bench/out/board_bench
PARAMETERS = crates/example_parameters/out/example_parameters
SCHEDULER = crates/example_scheduler/out/example_scheduler

.PHONY: test run bench smoke memory

# Proves every crate, tries the must-fail edits, runs the tests and the programs, and tries the programs from outside.
test:
	rt ci
	$(MAKE) smoke

# Answers the stored script, built without a proof.
run:
	cd crates/board_run && rt try < stdin

# A stated workload, and the seconds that it takes.
bench: $(RUN) $(CHECK) $(BENCH)
	@TIMEFORMAT='    %R s'; \
	on() { echo "$${*##*/}"; time "$$@"; }; \
	on $(RUN) gen 1000000; \
	folder=$$(mktemp -d) && trap 'rm -r "$$folder"' EXIT; \
	./long_script.sh > "$$folder/script"; \
	echo 'board_run, 200,000 lines'; \
	time $(RUN) < "$$folder/script" > "$$folder/answers"; \
	paste -d '\n' "$$folder/script" "$$folder/answers" > "$$folder/session"; \
	echo 'board_check_run, these and their answers'; \
	time $(CHECK) < "$$folder/session"; \
	for width in 1 4 32; do \
	    on $(BENCH) solo $$width get 10000000; \
	    on $(BENCH) solo $$width try_get 10000000; \
	    on $(BENCH) solo $$width update 10000000; \
	    on $(BENCH) typed $$width get 10000000; \
	    on $(BENCH) typed $$width try_get 10000000; \
	    on $(BENCH) typed $$width update 10000000; \
	done; \
	for kind in bits queue; do \
	    on $(BENCH) event $$kind 20000; \
	done; \
	for readers in 1 2 3; do \
	    on $(BENCH) shared 4 $$readers 1000000; \
	done

# The proved programs from outside: what they write, what they note, and their status.
smoke: $(RUN) $(SNAPSHOT) $(WATCH) $(CHECK) $(BENCH)
	./smoke.sh

# The proved programs with one growth of their memory refused, each in turn. It takes some minutes, and no other target asks for it.
memory: $(RUN) $(SNAPSHOT) $(WATCH) $(CHECK) $(PARAMETERS) $(SCHEDULER)
	./memory.sh

$(RUN) $(SNAPSHOT) $(WATCH) $(CHECK) $(BENCH) $(PARAMETERS) $(SCHEDULER):
	@echo '$@ is not there: make test leaves it' >&2; exit 1
