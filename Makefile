# make         prove every crate (what has not changed since it was proved is not proved again), build the programs, show a sample board
# make test    the gate: every crate and must-fail edit by `rt ci`, and our own tests; ends in 'N passed, M failed'
# make soak    the compiled code against the model in plain Rust on ever new cases: SECONDS=60 for so long, else until it is stopped
# make bench   docs/BENCHMARKS.md anew, on standard output; BEFORE=LIBRARY.so times another library beside it
# make clean   remove all that was built
# make help    this
.PHONY: all test soak bench clean help
SECONDS = 0
SAMPLE = examples/boards/shore_station.board

all:
	@tests/prove
	@tests/compare_cases worked_boards
	@echo; echo '$(SAMPLE):'
	@tools/board show $(SAMPLE)
	@echo; echo 'What to try next:'
	@echo '    tools/board draw $(SAMPLE) >station.svg     # the same board as a picture'
	@echo '    make test                                                             # every test there is; make help says what else'
	@echo 'README.md says where to go from here, whoever you are.'

test:
	@tests/gate

soak:
	@tests/need_rust
	@tests/prove
	@tests/model --for $(SECONDS)

bench:
	@bench/run $(if $(BEFORE),--before '$(BEFORE)')

clean:
	@rm -rf target crates/*/out bench/target model/target rust/target 2>/dev/null || \
	    { echo '$(CURDIR)/target cannot be removed' >&2; exit 1; }

help:
	@sed -n 's/^# //p' Makefile
