# The commands of README.md. Each works on a fresh machine: what is missing is installed from Debian's packages.
SHELL := /bin/bash
export CARGO_TARGET_DIR ?= $(CURDIR)/second/target
CARGO := cargo --offline

# Calls of random deliveries in a soak, and how long the fuzzer runs.
SOAK_CALLS ?= 10000000
FUZZ_SECONDS ?= 60

# Heights that `make market` plays.
MARKET_HEIGHTS ?= 2000

.PHONY: test installed rust board try-market told mutants edits soak fuzz bench demo market story stories picture node fresh-node simulator browser lib staticlib tools emulator cross native

# The node program, where rt ci and rt run leave it.
NODE := crates/node/out/node

INSTALL := apt-get update && apt-get install -y
# $(call need,COMMAND,PACKAGE)
need = @command -v $(1) > /dev/null || { $(INSTALL) $(2); }

# What rt compiles is x86-64 code on every machine. Where the machine is another, C programs that link it are built for x86-64 and run in an
# emulator. Cargo reads the linker and the runner of x86-64 programs under these names, and so do the tests, which are built for the machine.
# The emulator does `rep movsb` byte by byte: without erms, which offers it, the programs take less time.
MACHINE := $(shell uname -m)
X86 := x86_64-unknown-linux-gnu
ifneq ($(MACHINE),x86_64)
export CARGO_TARGET_X86_64_UNKNOWN_LINUX_GNU_LINKER := x86_64-linux-gnu-gcc
RUNNER := qemu-x86_64 -cpu max,-erms
export CARGO_TARGET_X86_64_UNKNOWN_LINUX_GNU_RUNNER := $(RUNNER)
EMULATOR := gcc-x86-64-linux-gnu libc6-dev-amd64-cross libc6:amd64 qemu-user
endif

# The proofs, the must-fail edits and the programs; then the library that firmware links, over the libraries that rt ci leaves, and the Rust tests.
# A must-fail edit that no longer fits its text is bad, and fails here. The verdict, rt ci's last line, is said again at the very end, and only
# if all passed.
test: emulator installed
	@mkdir -p .gate
	@set -o pipefail; rt ci 2>&1 | tee .gate/ci.log || { echo 'rt ci FAILED'; exit 1; }
	@! grep -E '^rt: ok.*, [0-9]+ bad' .gate/ci.log || { echo 'a must-fail edit is BAD'; exit 1; }
	@echo 'rt ci passed; the library, the Rust tests and the market follow'
	+@AFTER_CI=1 tools/in-memory $(MAKE) --no-print-directory --output-sync=target -j2 board rust try-market || { echo 'the library, the Rust tests or the market FAILED'; exit 1; }
	@tail -n 1 .gate/ci.log | grep -xE '[0-9]+ passed, 0 failed'

# Installed one after the other, since what follows runs side by side.
installed:
	$(call need,pkg-config,pkgconf)
	$(call need,strace,strace)
	$(call need,chromium,chromium)

# The Rust tests that need no proved library; those of node need its program, which rt ci or `make node` builds.
rust: tools
	$(call need,strace,strace)
	cd second && $(CARGO) test --release --quiet

# The Rust tests of the proved library.
board: lib
	cd second && $(CARGO) test --release --quiet -p board -- --show-output

# The market's tests: stories, small heights and the page in a browser, over the node that rt ci left. Some of them play at a time.
try-market: emulator browser
	@test -x $(NODE) || { echo 'there is no $(NODE): make node' >&2; exit 1; }
	cd second && $(CARGO) test --release --quiet -p market -- --test-threads=2

# The calls with second's whole replies that crates/examples proves of the definitions.
TOLD := crates/examples/proofs/Told.antt
told: tools
	cd second && $(CARGO) build --release --quiet --example told
	$(CARGO_TARGET_DIR)/release/examples/told > $(CARGO_TARGET_DIR)/told.txt
	cp $(CARGO_TARGET_DIR)/told.txt $(TOLD)
	cd crates/examples && rt fmt

# Wrong definitions, made from specs/ by one change each, against the lists of cases alone: prints those that no list refuses.
mutants:
	$(call need,python3,python3)
	@tools/mutants.py

# Edits of inner code, crates/NAME/edits, that the prover must refuse; NAMES="rules kiosk" takes those crates alone, and ALL=1 must-fail/ too.
edits:
	$(call need,python3,python3)
	@tools/edits $(if $(ALL),--all) $(NAMES)

# The same comparisons over many more calls, longer deliveries and more journals.
soak: emulator staticlib
	cd second && $(CARGO) test --release --test deliveries -- --ignored --nocapture
	cd second && SLIP_CALLS=$(SOAK_CALLS) $(CARGO) test --release -p board -- --nocapture

# libFuzzer over open, again and put. The Rust side is instrumented (second, fast and what compares them); libboard.a is as rt writes it.
# What fails is left in second/fuzz/found; what shall be played by `make test` from then on goes to second/fuzz/cases.
FUZZ := $(CARGO_TARGET_DIR)/fuzz
COVERAGE := -Cpasses=sancov-module -Ccodegen-units=1 $(addprefix -Cllvm-args=-sanitizer-coverage-,level=4 inline-8bit-counters pc-table trace-compares)
fuzz: native staticlib
	@test -e "$$(clang -print-file-name=libclang_rt.fuzzer-x86_64.a)" || { $(INSTALL) clang libclang-rt-dev; }
	mkdir -p $(FUZZ)/corpus second/fuzz/found
	cd second && CARGO_TARGET_DIR=$(FUZZ) RUSTFLAGS="$(COVERAGE)" $(CARGO) build --release -p fuzz --target $(X86)
	clang -fsanitize=fuzzer $(FUZZ)/$(X86)/release/libfuzz.a -o $(FUZZ)/fuzz
	@echo "fuzzing for $(FUZZ_SECONDS) s, log in $(FUZZ)/log"
	@$(FUZZ)/fuzz -max_total_time=$(FUZZ_SECONDS) -max_len=4096 -print_final_stats=1 -artifact_prefix=second/fuzz/found/ \
	  $(FUZZ)/corpus second/fuzz/cases > $(FUZZ)/log 2>&1 || { tail -60 $(FUZZ)/log; exit 1; }
	@grep -E 'DONE|stat::' $(FUZZ)/log

# The table of docs/BENCH.md; the text around it stays. Where an emulator runs the program, its plugin counts the instructions, and no time is
# taken. It counts as callgrind does: a `rep`, which erms offers, once for each step.
ifeq ($(MACHINE),x86_64)
bench: staticlib
	$(call need,valgrind,valgrind)
	cd second && $(CARGO) build --profile measured -p bench
	$(CARGO_TARGET_DIR)/measured/bench docs/BENCH.md
else
COUNT := $(CARGO_TARGET_DIR)/count.so
bench: cross staticlib
	cd second && CARGO_BUILD_TARGET=$(X86) RUSTC=/usr/bin/rustc /usr/bin/$(CARGO) build --profile measured -p bench
	gcc -O2 -Wall -Wextra -Werror -fPIC -shared second/bench/count.c -o $(COUNT)
	SLIP_COUNTER="qemu-x86_64 -cpu max -plugin $(COUNT) -d plugin -D" $(RUNNER) $(CARGO_TARGET_DIR)/$(X86)/measured/bench docs/BENCH.md
endif

# How the market starts a node.
export SLIP_NODE ?= $(strip $(RUNNER) $(CURDIR)/$(NODE))
MARKET := $(CARGO_TARGET_DIR)/release/market
DEMO := target/demo

# Four kiosks through one height, with a power cut and a lossy radio: what happened, and a page of it. The journals stay.
demo: emulator fresh-node simulator
	@mkdir -p $(DEMO)
	@$(MARKET) --story demo --folder $(DEMO) --page $(DEMO)/demo.html
	@for journal in $(DEMO)/*/kiosk-2.journal; do echo "journals: $${journal%/*}; bin/node list $$journal lists one"; done

# Seeded heights; prints what was counted.
market: emulator fresh-node simulator
	@time tools/in-memory $(MARKET) --heights $(MARKET_HEIGHTS) --workers 2

# One story told and drawn: NAME=power-cut, or the height of SEED=7; ARGS has further options.
NAME ?= plain
story: emulator fresh-node simulator
	@mkdir -p $(DEMO)
	@$(MARKET) $(if $(SEED),--seed $(SEED),--story $(NAME)) $(ARGS) --page $(DEMO)/$(if $(SEED),seed-$(SEED),$(NAME)).html

# The transcripts that the tests compare, written anew.
stories: emulator fresh-node simulator
	$(MARKET) --write-stories second/market/stories

# The picture in README.
picture: demo browser
	chromium --headless --no-sandbox --hide-scrollbars --window-size=1400,860 --screenshot=docs/height.png file://$(CURDIR)/$(DEMO)/demo.html

# The node program, proved again only where a crate is newer.
fresh-node:
	@if test -x $(NODE) && test -z "$$(find crates crates.txt -path 'crates/*/out' -prune -o -type f -newer $(NODE) -print -quit)"; then exit 0; fi; \
	  echo 'proving the node program and all that it stands on'; begun=$$SECONDS; \
	  mkdir -p .gate; $(MAKE) --no-print-directory node > .gate/node.log 2>&1 & made=$$!; \
	  while sleep 1; kill -0 $$made 2> /dev/null; do test $$(((SECONDS - begun) % 10)) -ne 0 || echo "  $$((SECONDS - begun)) s"; done; \
	  wait $$made || { cat .gate/node.log; exit 1; }; touch $(NODE); echo "proved and built in $$((SECONDS - begun)) s"

simulator: tools
	@cd second && $(CARGO) build --release --quiet -p market

browser:
	$(call need,chromium,chromium)

# The node program, proved and built; bin/node starts it. Some minutes from nothing, and seconds after that. rt runs it too, once it is built: on an empty journal.
node: emulator
	@mkdir -p .gate
	@cd crates/node && rt run -- list /dev/null > ../../.gate/node-run.log 2>&1; \
	  grep -q '^rt: running out/node' ../../.gate/node-run.log || { cat ../../.gate/node-run.log; exit 1; }
	@bin/node --help

# lib/: the proved library with its header, its pkg-config file and the examples, for firmware to take. Both ways to compile are tried: the
# line that is printed at the end, and the flags that pkg-config says.
LIB_CC := $(or $(CARGO_TARGET_X86_64_UNKNOWN_LINUX_GNU_LINKER),gcc) -std=c11
lib_line = $(LIB_CC) lib/loop.c -Ilib -Llib -lboard -o $(1)
VERSION = $(shell sed -n 's/^.define SLIP_VERSION "\(.*\)".*/\1/p' include/slipcoacher.h)
lib: emulator staticlib
	$(call need,pkg-config,pkgconf)
	@mkdir -p $(CARGO_TARGET_DIR)
	@cp include/slipcoacher.h include/example.c include/loop.c lib/
	@sed 's/@VERSION@/$(VERSION)/' include/slipcoacher.pc.in > lib/slipcoacher.pc
	@$(call lib_line,$(CARGO_TARGET_DIR)/loop)
	@$(LIB_CC) lib/example.c $$(PKG_CONFIG_PATH=lib pkg-config --cflags --libs slipcoacher) -o $(CARGO_TARGET_DIR)/example
	@$(RUNNER) $(CARGO_TARGET_DIR)/example > /dev/null
	@echo "in lib/: $$(ls lib | xargs)"
	@echo "to compile: $(call lib_line,loop)"

# lib/libboard.a, proved by the same command.
staticlib: tools
	tools/archive lib/libboard.a

tools:
	$(call need,cargo,cargo-web rustc-web)
	$(call need,gcc,gcc)
	@command -v rt > /dev/null || { echo 'rt, the command of the Rattle kit, is not on the PATH' >&2; exit 1; }

# $(call amd64,PACKAGES): they are there, or installed; amd64 is Debian's word for x86-64.
amd64 = dpkg -s $(1) > /dev/null 2>&1 || { dpkg --add-architecture amd64 && $(INSTALL) --no-install-recommends $(1); }

# What builds x86-64 programs in C on another machine, and runs them.
emulator: tools
	@test $(MACHINE) = x86_64 || $(call amd64,$(EMULATOR))

# What builds them in Rust besides, with Debian's cargo.
CROSS := cargo-web rustc-web libstd-rust-web-dev:amd64
cross: emulator
	@$(call amd64,$(CROSS))

# What instruments x86-64 code.
native:
	@test $(MACHINE) = x86_64 || { echo 'make fuzz needs an x86-64 machine, and this one is $(MACHINE)' >&2; exit 1; }
