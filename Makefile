# make recode FILE=PATH
#               builds the program `recode` and runs it on a file: the file again, as text of version 2.0, or one line `refused N line M`
# make test     the gate: proves, tries the must-fail edits, runs every test; its last line is 'N passed, 0 failed'
# make costs    when the last run of the gate had proved each crate, and how many must-fail edits it tried
# make lib      proves the crate firmware_c and those below it, and puts the library for C and its header file into build/
# make round    builds an example in C over that library: build/round, which evaluates a round
# make join     builds another: build/join, which joins two plans
# make walk     builds another: build/walk, which gives example rounds for a plan
# make tip      builds another: build/tip, which says which one reading would change a round's answer
# make widen    builds another: build/widen, which turns an old store, of edges of 16 bits, into a new one
# make bench    measures the library for C on generated files; ORACLE=DIR compares it with the Rust: see bench/run
# make cases ORACLE=DIR
#               makes the stored cases again, with the Rust, and says whether they are those of the repository;
#               INSTALL=1 puts them in place: see tests/README.md
# make differences ORACLE=DIR
#               runs the inputs of docs/DIFFERENCES.md on the Rust
.PHONY: recode test costs lib round join walk tip widen bench cases differences clean

CFLAGS = -std=c99 -O2 -Wall -Wextra -pedantic

recode:
	@test -n "$(FILE)" || { echo 'usage: make recode FILE=PATH' >&2; exit 2; }
	@(cd crates/recode && exec rt run) < "$(FILE)"

test:
	@tests/gate

costs:
	@tests/costs

lib:
	@cd crates/firmware_c && rt lib
	@mkdir -p build
	@cp crates/firmware_c/out/libfirmware_c.a build/libzonetweed.a
	@cp include/zonetweed.h build/zonetweed.h

round: lib
	$(CC) $(CFLAGS) -Ibuild -o build/round examples/round.c build/libzonetweed.a

join: lib
	$(CC) $(CFLAGS) -Ibuild -o build/join examples/join.c build/libzonetweed.a

walk: lib
	$(CC) $(CFLAGS) -Ibuild -o build/walk examples/walk.c build/libzonetweed.a

tip: lib
	$(CC) $(CFLAGS) -Ibuild -o build/tip examples/tip.c build/libzonetweed.a

widen: lib
	$(CC) $(CFLAGS) -Ibuild -o build/widen examples/widen.c build/libzonetweed.a

bench:
	@ORACLE='$(ORACLE)' bench/run

cases:
	@test -n "$(ORACLE)" || { echo 'usage: make cases ORACLE=DIR [INSTALL=1]' >&2; exit 2; }
	@python3 tests/cases/make.py "$(ORACLE)" $(if $(INSTALL),install)

differences:
	@test -n "$(ORACLE)" || { echo 'usage: make differences ORACLE=DIR' >&2; exit 2; }
	@python3 tests/differences/rust.py "$(ORACLE)"

clean:
	rm -rf build crates/*/out
