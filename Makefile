# Rewind. `make help` lists the targets. The toolchain's command `rt` must be on the path for what builds or proves.

PREFIX ?= /usr/local
# The program that tests take: bin/rewind (proved) or bin/rewind-quick.
REWIND ?= bin/rewind
# Checks side by side: one for each processor, as far as the memory goes. None was seen to take more than 5.5 GB.
RT_JOBS ?= $(shell awk -v n=$$(nproc) '/^MemTotal/ { m = int($$2 / 5500000); print m < 1 ? 1 : m < n ? m : n }' /proc/meminfo)

# Where the scripts find one another's modules.
export PYTHONPATH := $(CURDIR)$(if $(PYTHONPATH),:$(PYTHONPATH))

HAS_RT := $(shell command -v rt)
RT = $(if $(HAS_RT),rt,$(error rewind: 'rt' is not on the path: install the Rattle toolchain first (README.md, 'How to build it')))
NEEDS_RT = @: $(RT)

.DEFAULT_GOAL := $(if $(HAS_RT),all,help)
.PHONY: all help quick quick-page demo test lint gate prove edits words command-line-test bench replay second-opinion beside-go carry carry-page carry-beside-go hostile times \
	gate-times make-times page-figures slowest stalls faces dap-test page page-test page-lint vsix arm64 node dist quick-dist dist-check release-check release-test \
	bare-debian page-pictures install uninstall clean

## Use it

all: bin/rewind ## proves the program, and leaves it as bin/rewind (half an hour to an hour)

bin/rewind: FORCE
	$(NEEDS_RT)
	tools/build/prove.py rewind_cli $@ --help

quick: bin/rewind-quick ## builds the program without proofs, as bin/rewind-quick (3 minutes)

bin/rewind-quick: bin/quick/rewind.bc tools/build/quick_program.py
	$(NEEDS_RT)
	tools/build/quick_program.py $< $@

SOURCES := $(shell find crates -path '*/src/*.rt')

bin/quick/rewind.bc: $(SOURCES) crates.txt tools/build/quick_module.py tools/build/keep_module tools/kit.py
	$(NEEDS_RT)
	tools/build/quick_module.py $@

demo: bin/rewind-quick ## shows how to take back the step behind a deadlock (3 minutes with the quick build)
	@tools/demo.py bin/rewind-quick

quick-page: page-needs page/out/rewind-quick.wasm ## the debugger in a web page of the quick build: bin/rewind-quick.html (2 minutes)
	page/inline.py page/out/rewind-quick.wasm bin/rewind-quick.html --unproved

page: page-needs page/out/rewind.wasm ## the debugger in a web page of the proved program: bin/rewind.html (5 minutes after make)
	page/inline.py page/out/rewind.wasm bin/rewind.html

# What is missing of Debian's packages is installed before anything is built.
.PHONY: page-needs browser-needs other-browsers
page-needs:
	@page/needs.sh libjs-codemirror esbuild

browser-needs:
	@page/needs.sh chromium nodejs node-typescript eslint

# A test in a browser that cannot be had is skipped.
other-browsers:
	@page/needs.sh firefox-esr || :
	@page/needs.sh webkit2gtk-driver xvfb || :

PAGE_COMPILER := page/module/build.py page/module/retarget.py $(wildcard page/module/*.c) tools/kit.py

page/out/rewind-quick.wide.wasm: bin/quick/rewind.bc $(PAGE_COMPILER)
	$(NEEDS_RT)
	page/module/build.py --quick $< $@

page/out/rewind.wide.wasm: page/out/rewind.bc $(PAGE_COMPILER)
	$(NEEDS_RT)
	page/module/build.py $< $@

# The wide module has 64-bit memories, which not every browser knows. The page holds the other.
page/out/rewind.wasm page/out/rewind-quick.wasm: page/out/%.wasm: page/out/%.wide.wasm page/module/lower.py tools/kit.py
	page/module/lower.py $< $@

page/out/rewind.bc: bin/rewind page/module/proved_module.py tools/build/keep_module
	$(NEEDS_RT)
	page/module/proved_module.py $@

vsix: $(if $(wildcard bin/rewind),,bin/rewind-quick) ## the extension for VS Code, with all it needs: bin/rewind.vsix (a second)
	tools/release/vsix.py $(firstword $(wildcard bin/rewind) bin/rewind-quick) bin/rewind.vsix

# Made of the proved program where that is there, else of the quick build.
arm64: $(if $(wildcard page/out/rewind.bc),,bin/quick/rewind.bc) release-needs ## the program for Linux on arm64: bin/rewind-arm64 (3 minutes)
	tools/machines/arm64.py $(firstword $(wildcard page/out/rewind.bc) bin/quick/rewind.bc) bin/rewind-arm64

node: $(if $(wildcard page/out/rewind.wasm),,page/out/rewind-quick.wasm) ## the program for Node 18 or newer, on any system: bin/rewind.mjs (a second after make page)
	tools/machines/node.py $(firstword $(wildcard page/out/rewind.wasm) page/out/rewind-quick.wasm) bin/rewind.mjs

.PHONY: release-needs
release-needs:
	@tools/release/needs.sh

dist: page release-needs ## the release: the page, archives, packages and wheels, which need no toolchain (10 minutes after make page)
	tools/release/dist.py page/out/rewind.bc page/out/rewind.wasm bin/rewind.html dist

quick-dist: quick-page release-needs ## the same of the quick build, to try how it is made: bin/quick-dist (10 minutes after make quick-page)
	tools/release/dist.py --trial bin/quick/rewind.bc page/out/rewind-quick.wasm bin/rewind-quick.html bin/quick-dist

dist-check: ## makes the release in two fresh clones, and compares the files byte by byte (minutes after make; else hours)
	$(NEEDS_RT)
	tools/release/dist_check.sh

release-check: ## checks the committed release without the toolchain: it starts, a plain model answers alike, the documents hold (30 seconds)
	tests/released.sh

release-test: ## starts each file of a release where nothing else is (1 minute; FOLDER=dist)
	tests/run.sh --rewind=$(firstword $(wildcard bin/rewind) bin/rewind-quick) --release=$(or $(FOLDER),dist) tests/test_release.py tests/test_release_files.py

bare-debian: ## the archive of a release on bare Debian, in folders that debootstrap makes (10 minutes; as root, with a network)
	tests/bare_debian.sh $(or $(ARCHIVE),$(wildcard dist/*.tar.xz))

install: ## installs the program, its manual page and the clients (PREFIX=/usr/local, DESTDIR)
	tools/release/install.sh "$(DESTDIR)" "$(PREFIX)"

uninstall: ## removes what install installed
	tools/release/install.sh --remove "$(DESTDIR)" "$(PREFIX)"

## Test it

# What is given to pytest besides: K='-k sessions' chooses tests by their names, and T='--durations 20' is any other word of it.
PYTEST = tests/run.sh --rewind=$(REWIND) $(K) $(T)

test: bin/rewind-quick ## every test, without proofs (10 minutes on two processors; K='-k sessions' chooses)
	tests/run.sh --rewind=bin/rewind-quick $(K) $(T)

lint: ## the style and the types of all Python, scripts for the shell, and the page (1 minute)
	tests/lint.sh

gate: ## the gate: each proof from nothing, edits that must be refused, all tests and programs (an hour on four processors)
	RT_JOBS=$(RT_JOBS) $(RT) ci

prove: ## proves one crate, as `rt check` does, and begins minutes earlier in the crates at the top (CRATE=NAME)
	$(NEEDS_RT)
	cd crates/$(or $(CRATE),$(error rewind: name a crate, as CRATE=gr_step)) && $(CURDIR)/tools/build/rt_once.py check

edits: ## the edits that must be refused and that the gate leaves out (hours; CRATE=NAME for one crate)
	$(NEEDS_RT)
	RT_JOBS=$(RT_JOBS) tools/build/edits.sh $(CRATE)

command-line-test: $(REWIND) ## what the program writes by its command line, with pipes and at a terminal (1 minute)
	words/make.py --check
	$(PYTEST) tests/test_command_line.py

replay: $(REWIND) ## steps of random sessions, taken again in fresh sessions and in other orders (5 minutes; SECONDS=N)
	$(PYTEST) --seconds $(or $(SECONDS),300) tests/test_replay.py

second-opinion: $(REWIND) ## random sessions, answered by a plain model too (10 minutes; SECONDS=N)
	$(PYTEST) --seconds $(or $(SECONDS),600) tests/test_second_opinion.py

faces: $(REWIND) ## what page, shell and adapter say of all programs and of 2,000 random ones, compared (10 minutes on four processors)
	$(PYTEST) --full tests/test_faces.py

carry: bin/rewind-carry ## what carries real Go over: bin/rewind-carry (a few seconds; needs go)

CARRY_SOURCES := carry/go.mod $(wildcard carry/*.go carry/*/*.go carry/source/stubs/*)

bin/rewind-carry: $(CARRY_SOURCES)
	@command -v go >/dev/null || tools/packages.sh golang-go
	cd carry && CGO_ENABLED=0 go build -trimpath -ldflags="-s -w -X main.version=$$(sed -n 's/^    text: //p;T;q' ../words/program.txt)" -o ../bin/rewind-carry .

carry-page: bin/rewind-carry.js ## the same for the page, which loads it from beside itself: bin/rewind-carry.js (half a minute; needs go)

bin/rewind-carry.js: $(CARRY_SOURCES) tools/build/carry_page.py
	@command -v go >/dev/null || tools/packages.sh golang-go
	cd carry && GOOS=js GOARCH=wasm go build -trimpath -ldflags='-s -w' -o ../bin/rewind-carry.wasm ./wasm
	tools/build/carry_page.py bin/rewind-carry.wasm $@

carry-beside-go: $(REWIND) carry ## programs of carry/testdata, carried over and run by Go: no other outcome (10 minutes; needs go)
	$(PYTEST) --full tests/test_carry.py

beside-go: $(REWIND) ## programs as Go runs them: some schedule of the rules comes to each outcome (2 minutes; needs go)
	$(PYTEST) --full tests/test_beside_go.py

dap-test: $(REWIND) ## the adapter for editors, and their set-ups (2 minutes)
	$(PYTEST) clients/tests/dap

IS_QUICK = $(filter rewind-quick,$(notdir $(REWIND)))

page-test: browser-needs other-browsers carry-page $(if $(IS_QUICK),quick-page,page) ## the page: types, style, modules, all of it in Chromium, and sessions in Firefox and WebKitGTK (5 minutes)
	page/test.sh bin/rewind$(if $(IS_QUICK),-quick).html

page-lint: ## types and style of the page, its tests and the extension for VS Code (10 seconds)
	@page/needs.sh node-typescript eslint
	page/lint.sh

hostile: $(REWIND) bin/races ## hostile sources and commands, failing devices, refused memory, races (6 processor minutes)
	$(PYTEST) --full tests/hostile
	cd crates/races && ../../bin/races 4 2 1000 100 data/*.go && ../../bin/races 2 4 1000 100 data/*.go

bench: bin/rewind ## times of steps, rollback, workers, channels and the front, into bench/RESULTS.md (minutes; BASELINE=PROGRAM compares)
	tools/measure/results.py $(if $(BASELINE),--baseline $(BASELINE))

slowest: ## the functions and proof files of a crate that took longest in its last check (CRATE=NAME)
	tools/measure/slowest.py crates/$(or $(CRATE),$(error rewind: name a crate, as CRATE=gr_step))

stalls: bin/rewind ## loads of memory that wait for stores, in a run of a program (SOURCE=FILE; needs valgrind)
	tools/measure/stalls.py bin/rewind $(or $(SOURCE),bench/programs/loop.go)

times: ## how long demo, quick, quick-page and test take on two processors, in fresh clones (15 minutes)
	$(NEEDS_RT)
	tools/measure/times.py

gate-times: ## the gate in a fresh clone, with the processor minutes of each crate: bench/GATE.md (as long)
	$(NEEDS_RT)
	mkdir -p bin
	tools/measure/gate.py --table bench/GATE.md --log bin/gate.log

make-times: ## make in a fresh clone, with its slowest functions: bench/MAKE.md (as long)
	$(NEEDS_RT)
	tools/measure/make_times.py --table bench/MAKE.md

page-figures: browser-needs $(if $(IS_QUICK),quick-page,page) ## how soon the page is painted, and its memory: bench/PAGE.md (2 minutes)
	tools/measure/page.py bin/rewind$(if $(IS_QUICK),-quick).html --table bench/PAGE.md

## Make again what is made

words: ## the program's texts, manual page and tables from words (a second)
	words/make.py

page-pictures: browser-needs page ## the pictures of docs/SESSIONS.md, drawn by the page (1 minute)
	mkdir -p docs/pictures
	node page/test/pictures.mjs $(CURDIR)/bin/rewind.html page/pictures.json docs/pictures

clean: ## removes all that was made
	rm -rf bin crates/*/out page/out

help: ## lists these targets
	@awk '/^## / { printf "\n%s\n", substr($$0, 4) } /^[a-z-]+:.*## / { name = $$0; sub(/:.*/, "", name); sub(/.*## /, ""); \
		printf "  make %-18s %s\n", name, $$0 }' $(firstword $(MAKEFILE_LIST))

# A program that is proved is run once, in its crate's folder, with words that it takes.
RUN_races := 2 1 100 10 data/relay.go

bin/races: FORCE
	$(NEEDS_RT)
	tools/build/prove.py $(notdir $@) $@ $(RUN_$(notdir $@))

# A program that is named and that no rule makes must be there.
$(filter-out bin/rewind bin/rewind-quick,$(REWIND)):
	$(error rewind: there is no program $@: name one by REWIND=PATH, or leave it out)

FORCE:
