# The commands of this repository; `make help` lists them. `rt` is the toolchain's command.

PREFIX ?= /usr/local
PROGRAM = crates/usi_host/out/usi_host

.PHONY: try run build library install uninstall quick check check-batch dist deb test bench clean help
.DEFAULT_GOAL = help

# Runs the program on standard input: the built one, or one that is compiled without a proof, once.
try:
	@check/try.sh

# Starts the program on standard input and output, and builds first what is not built yet. Where the
# toolchain is not on the path, it starts the program that is there.
run:
	@if command -v rt >/dev/null || [ ! -x $(PROGRAM) ]; then check/build.py; fi
	@if [ -t 0 ]; then echo 'Reading USI from the terminal. Try: isready, then: go depth 3, then: quit' >&2; fi
	@$(PROGRAM)

# Proves and builds what is not built yet, and tells how far it is.
build:
	@check/build.py

# Proves the program and the library for C, and makes crates/usi_library/out/libusi.a and libusi.so;
# share/library has its header.
library:
	@check/build_library.sh

# Puts the built program and what goes with it below PREFIX, and the library for C if that is built. It builds
# nothing, so that it leaves no files of root among the sources.
install:
	@check/install.sh "$(PREFIX)" "$(DESTDIR)"

# Takes away what `make install` put there.
uninstall:
	@check/uninstall.sh "$(PREFIX)" "$(DESTDIR)"

# Compiles the program and the tests without a proof, and runs them and the scripts of check/.
quick:
	@check/quick.py

# Runs the scripts that try the built program, and the library for C, as their users do.
check: library
	check/program.py
	check/serve.py
	check/examples.py
	check/package.py
	check/library.py

# Spreads work over several processes and machines of this one by what is installed: GNU parallel, Dask, HAProxy.
check-batch:
	check/batch.py

# Makes a tarball of the program, the library for C and what goes with them, which is used without the toolchain, and the
# sdist and the wheel of the Python package.
dist: library
	check/dist.sh

# Makes Debian packages of the program and of the library for C, and tries them with lintian and in a root of their own.
deb: library
	check/deb.sh
	check/deb_check.sh

# Proves every crate, tries each edit that must fail, runs each test and program, and then
# the built program as its users run it.
test:
	@check/gate.sh

# Prints how fast moves are counted, positions searched, and `go` answered by the program, alone and as a
# host on a socket. Writes docs/BENCHMARKS.md with its plots.
bench:
	bench/rates.sh
	bench/go.py
	bench/curves.py
	bench/multipv.py
	bench/usefulness.py --write
	bench/mate_times.py --write
	bench/serve.py

# Takes away what was built and what `rt check` kept.
clean:
	rm -rf crates/*/out dist

help:
	@echo 'make try        tries the program on standard input; unproved, if it is not built'
	@echo 'make run        starts the program on standard input and output; builds it first'
	@echo 'make build      proves and builds what is not built yet'
	@echo 'make library    the library for C, static and shared'
	@echo 'make install    puts the built usi_host and what goes with it below PREFIX (/usr/local)'
	@echo 'make uninstall  takes it away again from PREFIX'
	@echo 'make quick      tests and scripts on the unproved program, in some five minutes'
	@echo 'make check      tries the built program as its users run it'
	@echo 'make check-batch  tries the recipes for several machines, on this one'
	@echo 'make deb        Debian packages of program and library'
	@echo 'make dist       a tarball for machines without the toolchain, and the Python package'
	@echo 'make test       the gate: every proof, each edit, test and program'
	@echo 'make bench      how fast it is'
	@echo 'make clean      takes away what was built and what rt check kept'
