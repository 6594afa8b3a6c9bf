# make test: all tests. make run: the examples, from a clone to the page of the book. make lib: the static library alone.
# make compare: the long comparison with the model and the Rust. make bench: the register and the Rust measured side by
# side. make wrong: the wrong answers of docs/WRONG.md, which the prover must refuse. make fmt: the layout of every Rattle
# and antt file.
.PHONY: test lib run compare bench wrong fmt

# rt ci proves every crate from nothing, tries the must-fail edits and runs the programs; the checks of tests/ follow.
test:
	@tests/run

# The static library of the entry points (crate station_c), which Rust and C link. Only what is proved is compiled.
LIBRARY = target/staticlib/libstation.a
lib: $(LIBRARY)

$(LIBRARY): crates.txt $(shell find crates -name out -prune -o \( -name '*.rt' -o -name '*.antt' \) -print)
	@echo "== Proving the register and compiling it: rt lib, in crates/station_c (many minutes the first time)"
	@cd crates/station_c && rt lib
	@mkdir -p $(@D)
	@cp crates/station_c/out/libstation_c.a $@

run:
	@examples/run

# The Rust is looked for in ../shared/docs/src; `make compare ARGS='--rust FOLDER --seed N --calls N'` takes other arguments.
compare: lib
	@python3 -B compare/run $(ARGS)

bench: lib
	@python3 -B compare/bench $(ARGS)

# `make wrong ARGS='CRATE ..'` tries those of some crates.
wrong:
	@rt all check
	@python3 -B tests/wrong.py $(ARGS)

fmt:
	@for crate in crates/*/; do (cd $$crate && rt fmt) || exit 1; done
