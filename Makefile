# What links the library: C and Rust. It needs cc and cargo, no network, and rt where the library has to be made. The merge gate is .ci/run.
#
#   make            the C example and the Rust crate
#   make test       both tested: the example against its stored output, the crate against rdef.rs; and bin/rdef
#   make compare    the crate against rdef.rs, CASES of each kind (1,000,000)
#   make bench      times beside rdef.rs
#   make stack      bytes of stack that the functions and the programs use
.PHONY: all library c rust test test-c test-rust test-rdef compare bench stack

LIBRARY = target/staticlib/libnontrefalcu.a
CASES = 1000000
CFLAGS = -std=c99 -Wall -Wextra -pedantic -O2
CARGO = CARGO_TARGET_DIR=target/rust cargo
CRATE = --offline --manifest-path rust/Cargo.toml

all: c rust
library: $(LIBRARY)

# rt lib proves nontrefalcu_c and what it rests on, as far as they changed, and makes the archive.
$(LIBRARY): crates.txt $(shell find crates/*/src -name '*.rt')
	cd crates/nontrefalcu_c && rt lib
	@mkdir -p $(@D)
	cp crates/nontrefalcu_c/out/libnontrefalcu_c.a $@

c: target/c/variables
rust: $(LIBRARY)
	$(CARGO) build --release $(CRATE)

target/c/%: examples/%.c include/nontrefalcu.h $(LIBRARY)
	@mkdir -p target/c
	$(CC) $(CFLAGS) -Iinclude -o $@ $< $(LIBRARY)

test: test-c test-rust test-rdef

test-c: target/c/variables
	target/c/variables samples/nested.5.rdef target/c/nested.rdef > target/c/nested.txt
	cmp target/c/nested.txt examples/nested.txt
	cmp target/c/nested.rdef examples/nested.rdef
	@echo 'the C example writes what is stored'

test-rust: $(LIBRARY)
	$(CARGO) test --release $(CRATE)

test-rdef:
	tests/rdef

compare: $(LIBRARY)
	CASES=$(CASES) $(CARGO) test --release $(CRATE) -- --nocapture

bench: $(LIBRARY)
	$(CARGO) bench --quiet $(CRATE) --bench speed

stack: target/c/stack
	bin/rdef build
	@target/c/stack target/c/deep.rdef
	@examples/stack-of-programs crates target/c/deep.rdef
