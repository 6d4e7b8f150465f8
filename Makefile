# make try    builds a slow program without a proof, and shows that it works, in some two minutes
# make        proves the program and builds bin/wdyl; a line tells each time a crate is done
# make demo   builds it, and lists, merges and runs the examples, which are built again where clang and wasm-ld are there, and opens the
#             page of a merged file where Chromium is there
# make guide  runs the commands of docs/GUIDE.md, README.md and docs/TOOLS.md, and compares what they print with what stands there
# make docs   sees that README.md and docs/ name what there is: links, paths, crates, calls, counts, what one has to believe
# make install    puts the program, wdyl-cc, the manual page, completions for shells, and the headers and start files of the examples
#                 under PREFIX, which is /usr/local if not given; make uninstall removes them
# make dist   packs what make install installs into dist/, with the commit and checksums
# make bench  builds it and measures it
# make speed  measures runs of whole programs beside other engines, and beside another program of wdyl, OTHER, where one is given
# make codec  measures decoding, encoding and checking beside wabt, and merging beside these
# make inner  measures the memories and integer operators of a run beside C
# make compare  runs random modules and random sets by wdyl and by node, validates changed ones by wdyl and by wabt, replays traces
#               of runs and changed ones, compares what is written of a set in two folders, by OTHER too where that is given, and runs
#               the merged examples by the engines of three browsers
# make boards  runs random sets in turns, and sees that each does what it does alone
# make snapshots  runs the snapshots of random sets by wdyl and by node, and sees that they do what the sets do
# make adapters  runs wdyl over files, streams and a random source of the system that fail
# make refused  refuses each request for memory in turn, of several orders, which have to end for want of memory or as if none was refused
# make spec  holds exec and the checker against the specification's own tests, in TESTS, a folder of which compare/spec.py tells
# make hostile  gives wdyl damaged files for MINUTES, from the seed SEED on, with a limit on memory and time
# make test   makes docs, and proves, builds and tests everything

SOURCES := crates.txt $(shell find crates -name out -prune -o -type f \( -name '*.rt' -o -name '*.antt' \) -print)

PREFIX = /usr/local
OTHER =
TESTS =
MINUTES = 10
SEED = 0
programs = $(DESTDIR)$(PREFIX)/bin
manuals = $(DESTDIR)$(PREFIX)/share/man/man1
shared = $(DESTDIR)$(PREFIX)/share/wdyl
bash_completions = $(DESTDIR)$(PREFIX)/share/bash-completion/completions
zsh_completions = $(DESTDIR)$(PREFIX)/share/zsh/site-functions
fish_completions = $(DESTDIR)$(PREFIX)/share/fish/vendor_completions.d

# what programs are compiled with: entries, dlopen and its like, text out and in, memory; a merged file run by node or a page; and what
# looks into a plan
SHARED := start.c start_wasi.c dl.h io.h io.c heap.h heap.c start_cxx.cpp runtime.cpp wasi.mjs
# what lets CMake and Meson know of sets
SHARED += wdyl.cmake wdyl_rules.cmake wdyl.meson
# what wdyl-libc makes a C library and a runtime of C++ of
SHARED += dlfcn.h libc_more.c cxx_types.cpp cxx_library.cpp
# what shows what modules and plans say
SCRIPTS := check-plan module-names plan-picture

.PHONY: all try demo guide docs dist install uninstall bench speed codec inner compare boards snapshots adapters refused spec hostile test clean

all: bin/wdyl

bin/wdyl: $(SOURCES)
	python3 tools/prove.py crates/wdyl build.log
	mkdir -p bin
	cp crates/wdyl/out/wdyl bin/wdyl

try:
	sh tools/try.sh

demo: bin/wdyl
	sh examples/demo.sh bin/wdyl
	sh examples/greetings.sh bin/wdyl
	sh examples/programs/demo.sh bin/wdyl
	sh examples/hosted.sh bin/wdyl
	sh examples/tools.sh bin/wdyl
	sh examples/unchanged.sh bin/wdyl
	sh examples/libraries.sh bin/wdyl
	python3 examples/web/test.py bin/wdyl

guide: bin/wdyl
	sh examples/guide.sh bin/wdyl

docs:
	python3 docs/check.py
	python3 docs/believe.py --check
	python3 docs/figures.py --check

install: bin/wdyl
	install -d "$(programs)" "$(manuals)" "$(shared)" "$(bash_completions)" "$(zsh_completions)" "$(fish_completions)"
	install -m 755 bin/wdyl tools/wdyl-cc tools/wdyl-libc tools/wdyl-rustc "$(programs)"
	ln -sf wdyl-cc "$(programs)/wdyl-c++"
	install -m 644 tools/completions/wdyl.bash "$(bash_completions)/wdyl"
	install -m 644 tools/completions/_wdyl "$(zsh_completions)/_wdyl"
	install -m 644 tools/completions/wdyl.fish "$(fish_completions)/wdyl.fish"
	install -m 644 man/wdyl.1 "$(manuals)/wdyl.1"
	install -m 644 $(SHARED:%=examples/programs/%) "$(shared)"
	install -m 755 $(SCRIPTS:%=examples/programs/%) "$(shared)"

uninstall:
	rm -f "$(programs)/wdyl" "$(programs)/wdyl-cc" "$(programs)/wdyl-c++" "$(programs)/wdyl-libc" "$(programs)/wdyl-rustc" "$(manuals)/wdyl.1"
	rm -f $(SHARED:%="$(shared)/%") $(SCRIPTS:%="$(shared)/%")
	rm -f "$(bash_completions)/wdyl" "$(zsh_completions)/_wdyl" "$(fish_completions)/wdyl.fish"
	test ! -d "$(shared)" || rmdir --ignore-fail-on-non-empty "$(shared)"

dist: bin/wdyl
	rm -rf dist
	$(MAKE) --no-print-directory -o bin/wdyl install DESTDIR= PREFIX="$(CURDIR)/dist/installed"
	sh tools/dist.sh dist/installed

bench: bin/wdyl
	python3 bench/merge.py bin/wdyl
	python3 bench/gather.py bin/wdyl
	python3 bench/link.py bin/wdyl
	python3 bench/sets.py bin/wdyl
	python3 bench/dlsym.py bin/wdyl
	python3 bench/gen.py bin/wdyl
	python3 bench/random.py bin/wdyl
	python3 bench/boards.py bin/wdyl
	@if command -v node >/dev/null; then node bench/recursion.mjs bin/wdyl; \
	else echo "node is missing: the merged module that recurses for ever isn't run"; fi

speed: bin/wdyl
	python3 bench/exec.py bin/wdyl $(OTHER)
	@if [ -n "$(OTHER)" ]; then python3 bench/short.py bin/wdyl $(OTHER); fi
	python3 bench/programs.py bin/wdyl

codec: bin/wdyl
	python3 bench/codec.py
	python3 bench/merging.py bin/wdyl

inner:
	python3 bench/inner.py

compare: bin/wdyl
	python3 compare/compare.py bin/wdyl
	python3 compare/compare_sets.py bin/wdyl
	python3 compare/traces.py bin/wdyl
	python3 compare/costs.py bin/wdyl
	python3 compare/same_bytes.py bin/wdyl $(OTHER)
	sh compare/engines.sh bin/wdyl

boards: bin/wdyl
	python3 compare/boards.py bin/wdyl

snapshots: bin/wdyl
	python3 compare/snapshots.py bin/wdyl

adapters: bin/wdyl
	sh compare/adapters.sh bin/wdyl

refused: bin/wdyl
	python3 compare/refused.py bin/wdyl

spec: bin/wdyl
	python3 compare/spec.py bin/wdyl $(TESTS)

hostile: bin/wdyl
	python3 compare/hostile.py bin/wdyl --minutes $(MINUTES) --seed $(SEED)

test: docs
	rt ci

clean:
	rm -rf bin build.log dist
