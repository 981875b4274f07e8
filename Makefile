# make, make library: proves and builds the library, target/staticlib/libttcrx.a, for C, C++ and Rust (its header is include/ttcrx.h), and the
# program, target/bin/ttclines.
# make demo: proves and builds the program, and shows what it prints of docs/example.txt, line by line and in words.
# make test: the gate: the layout of the Rust files, every proof and must-fail edit, then library and program against the independent model.
# make compare: library and program against the independent model of host/, called from Rust, C and C++; the examples of README.md and
# docs/USING.md; and the tests against wrong libraries, each of which they must find.
# make bench: measures program and library beside the independent model, and prints the tables.
# make layout: says which Rust files are not in the layout (rt ci says it of the Rattle and antt files). make fmt: puts all files in it.
.PHONY: library demo compare bench layout test fmt

ARCHIVE = target/staticlib/libttcrx.a
PROGRAM = target/bin/ttclines
WARNINGS = -Wall -Wextra -Wpedantic -Werror
HOST = --quiet --offline --locked --manifest-path host/Cargo.toml

library: $(PROGRAM)
	cd crates/ttcrx && rt lib
	@mkdir -p $(dir $(ARCHIVE))
	cp crates/ttcrx/out/libttcrx.a $(ARCHIVE)

# rt run proves and builds the program, and runs it, here on no input.
.PHONY: $(PROGRAM)
$(PROGRAM):
	cd crates/ttclines && rt run < /dev/null
	@mkdir -p $(dir $(PROGRAM))
	cp crates/ttclines/out/ttclines $(PROGRAM)

# What a printed line says, in words: for each refusal of a line, each verdict, and the end.
IN_WORDS = \
	-e 's/^[0-9]+ ! 10$$/refused: not 4 or 11 characters/' \
	-e 's/^[0-9]+ ! 11$$/refused: a character is no hexadecimal digit/' \
	-e 's/^[0-9]+ ! 12$$/refused: start, format or leading bits are wrong/' \
	-e 's/^[0-9]+ ([1-6]|10) 1 [0-9A-F]+ ([0-9]+)$$/verdict \1, after the wrong bit at place \2 was corrected/' \
	-e 's/^[0-9]+ ([1-9]|1[01]) 0 .*/verdict \1/' \
	-e 's/^verdict 11/odd syndrome, of no bit, as of three wrong bits: dropped, a double error/' \
	-e 's/^verdict 10/the byte belongs to no fine delay setting: not stored/' \
	-e 's/^verdict 1/broadcast, executed/' \
	-e 's/^verdict 2/data stored in a register/' \
	-e 's/^verdict 3/RESET: the receiver is fresh again/' \
	-e 's/^verdict 4/E = 1: shown to the electronics outside/' \
	-e 's/^verdict 5/for another address: no effect/' \
	-e 's/^verdict 6/unknown sub-address: no effect/' \
	-e 's/^verdict 7/stop bit 0: dropped, a double error; then 41 ones/' \
	-e 's/^verdict 8/even syndrome, as of two wrong bits: dropped, a double error/' \
	-e 's/^verdict 9/fixed bit 0: dropped, a double error/' \
	-e 's/^end .*/single errors, double errors, events, bunch number/'

demo: $(PROGRAM)
	@$(PROGRAM) < docs/example.txt > target/demo.txt
	@echo
	@echo 'Left: docs/example.txt, one frame a line. Middle: what ttclines prints of each line, the number of the line and then verdict, corrected'
	@echo 'flag and word of the frame, and the place of the corrected bit (not with 7, 8 and 11), or ! and the number of refusal. Right: the same in'
	@echo 'words. The receiver has ID 5 and starts fresh.'
	@echo
	@sed -E $(IN_WORDS) target/demo.txt | paste docs/example.txt target/demo.txt - | expand -t 14,34

compare: library
	cargo test $(HOST)
	gcc -std=c11 $(WARNINGS) -Iinclude host/c/interface.c $(ARCHIVE) -o target/interface-c
	target/interface-c
	g++ -std=c++17 $(WARNINGS) -Iinclude -x c++ host/c/interface.c -x none $(ARCHIVE) -o target/interface-cxx
	target/interface-cxx
	@set -e; for file in host/c/examples/*; do \
		case $$file in *.c) compiler='gcc -std=c11';; *) compiler='g++ -std=c++17';; esac; \
		$$compiler $(WARNINGS) -Iinclude $$file $(ARCHIVE) -o target/example; \
		target/example > target/example.log 2>&1 || { cat target/example.log; exit 1; }; \
		echo "$$file runs"; \
	done
	gcc -shared -o target/libttcrx.so -Wl,--whole-archive $(ARCHIVE) -Wl,--no-whole-archive
	gcc -std=c11 $(WARNINGS) -Iinclude host/c/examples/correct.c -Ltarget -lttcrx -Wl,-rpath,$(CURDIR)/target -o target/example
	target/example
	@set -e; for file in host/examples/*.rs; do \
		cargo run $(HOST) --profile test --example $$(basename $$file .rs); \
		echo "$$file runs"; \
	done
	cargo run $(HOST) --profile test --bin three_flips
	host/wrong/run

bench: library
	cargo build --release $(HOST)
	cargo run --release $(HOST)

layout:
	cargo fmt --check --manifest-path host/Cargo.toml
	cargo fmt --check --manifest-path host/wrong/Cargo.toml

# rt ci proves everything, tries the must-fail edits, and refuses files that are not in the layout; the comparison comes after it. The last
# line of rt ci, 'N passed, M failed', is kept back in .ci/log, and printed once the comparison has passed too. A pipe has the status of its
# last command, so the status of rt ci goes to .ci/status: all has passed if it is 0, the last line has no failure, and the line `rt: ok`
# has no bad edit.
test: layout
	@rm -f .ci/log .ci/status
	{ rt ci; echo $$? > .ci/status; } | tee .ci/log | sed -u '$$d'
	@echo 0 | cmp -s - .ci/status || { echo "rt ci ended with status $$(cat .ci/status)"; exit 1; }
	@tail -n 1 .ci/log | grep -q ' passed, 0 failed$$'
	@! grep '^rt: ok.*, [0-9]* bad' .ci/log
	$(MAKE) --no-print-directory compare
	@tail -n 1 .ci/log

fmt:
	@set -e; for crate in crates/*/; do (cd $$crate && rt fmt); done
	cargo fmt --manifest-path host/Cargo.toml
	cargo fmt --manifest-path host/wrong/Cargo.toml
