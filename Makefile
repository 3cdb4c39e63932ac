# Targets: test (everything that a change must pass), run (the console program on a sample page), compare (N cases beside the
# oracle), bench (times beside the Rust), growth (times of pages from 1 to 32 KB, and of worst pages; with BAR=1 both fail where a
# time is over its bar in oracle/src/bars.rs, with ALLOWED=1 where one is over the figure allowed there), fuzz (SECONDS of calls on random inputs,
# between guard pages), samples, record and upper (make samples/, the recorded lists and the upper-case table again), install and uninstall
# (the program sefgrunn, the library and the header, under PREFIX, below DESTDIR).
.PHONY: test run compare bench growth fuzz samples record upper install uninstall clean

PREFIX ?= /usr/local
N ?= 1000000
SEED ?= 1
SECONDS ?= 60
BAR ?= 0
ALLOWED ?= 0

test:
	@tools/test

run:
	@tools/run

compare:
	@set -e; oracle=$$(tools/link); $$oracle compare --seed $(SEED) --cases $(N)

bench:
	@set -e; oracle=$$(tools/link); links=$$(tools/links); $$oracle bench --links $$links --bar $(BAR) --allowed $(ALLOWED) samples/options-2k.doc samples/options-8k.doc samples/options-30k.doc samples/prose.doc samples/nonascii.doc

growth:
	@set -e; oracle=$$(tools/link); links=$$(tools/links); $$oracle growth --links $$links --bar $(BAR) --allowed $(ALLOWED) samples/options-30k.doc

fuzz:
	@tools/fuzz $(SECONDS)

samples:
	@cd oracle && cargo run --release --offline --quiet --example samples -- ../samples

record:
	@tools/record

upper:
	@cd oracle && cargo run --release --offline --quiet --example upper -- make ../crates/upper

install:
	@PREFIX='$(PREFIX)' DESTDIR='$(DESTDIR)' tools/install

uninstall:
	@PREFIX='$(PREFIX)' DESTDIR='$(DESTDIR)' tools/install uninstall

clean:
	rm -rf target oracle/target wrapper/target command/target
