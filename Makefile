# What can be done here; `make` alone lists it. All of it may be done again at any time.
PREFIX = /usr/local
DESTDIR =

# The version, which pkg-config and the package show.
VERSION = 0.1.0
# Who answers for a package that is given to others, and where it is put.
MAINTAINER = the maintainers of cpe <root@localhost>
PACKAGES = build
# Where zsh looks for completions that no package has.
ZSH_COMPLETIONS = $(PREFIX)/share/zsh/site-functions

# Puts the program that rt left in its crate into build/, where it differs from the one there.
take_program = mkdir -p build && { cmp -s crates/cpe/out/cpe build/cpe || \
	{ cp crates/cpe/out/cpe build/cpe.new && mv -f build/cpe.new build/cpe; }; }

.PHONY: help build program release library demo service test limits wrong-bodies install install-library deb bench clean need_rt need_python3

help:
	@echo 'make demo     reads examples/names.txt, and goes the whole way from feeds to the advisories of two machines (that needs'
	@echo '              python3): with the program in release/, if the gate built it from exactly the sources here, or else with'
	@echo '              the one that make build makes. So do all targets below that need the program; with PROVE=1 they always prove it'
	@echo 'make service  runs the service with the samples on http://127.0.0.1:8765/, its data in build/service (needs starlette and'
	@echo '              uvicorn of Python, which Debian has)'
	@echo 'make build    proves the program, and builds it into build/cpe'
	@echo 'make library  proves the library for C, and builds it into build/libcpe.a and build/libcpe.so (needs cc and binutils)'
	@echo 'make test     the gate: rt ci, what each crate took, then checks of the program as rt ci built it, of the release, of the'
	@echo '              manual page, of the recipes, of the service, of the library for C where make library was run before, of the'
	@echo '              package and the completions, and of the conformance cases'
	@echo 'make release  makes release/ from what make test built, in a tree without changes'
	@echo 'make limits   fills the program up to its limits, refuses each allocation of short sessions, and measures the stack that'
	@echo '              each word needs: minutes, and 6 GB of memory; not in the gate'
	@echo 'make wrong-bodies  tries the wrong bodies that take too long for the gate, each of which the prover must refuse: half an hour'
	@echo 'make install  puts the program into PREFIX/bin, and its manual page, its completions for bash and zsh, the recipes and the'
	@echo '              service into PREFIX/share (PREFIX=$(PREFIX))'
	@echo 'make install-library  builds the library, and puts it into PREFIX/lib, and cpe.h into PREFIX/include'
	@echo 'make deb      puts a package for Debian into PACKAGES, of what make install puts, and of the library where it is built'
	@echo '              (PACKAGES=$(PACKAGES))'
	@echo 'make bench    measures the program against unproved Rust and OpenSCAP, and edits and the whole way by themselves;'
	@echo '              what it finds is in build/bench/results.txt then (needs python3)'
	@echo 'make clean    removes all that was built'

# The program in build/cpe: the one in release/, if it is of exactly these sources, or else the one that is proved here.
program:
	@{ [ -z '$(PROVE)' ] && sh release/release.sh take; } || $(MAKE) --no-print-directory build

# rt has no command that builds a program without running it. Over an empty input this one writes
# nothing and ends with status 0, so the status is that of the proof and the build.
build: need_rt
	@[ -x build/cpe ] || echo 'The first build checks the proofs of all crates below the program: some 150 processor minutes, so an' \
		'hour on four processors. rt prints the name of each crate when its proof begins, and each proved function.'
	cd crates/cpe && rt run -- unbind < /dev/null
	@$(take_program)

# The proved part is over what rt kept of its last check.
library: need_rt
	cd crates/c_library && rt lib
	sh library/build.sh

# Two web servers. CVE-2024-98001 has ranges of versions, and is TRUE on the one and FALSE on the other, which --all shows.
# (Status 1 is a result too: something was left out, and that was said.)
ranges = recipes/samples/ranges
whole_way = CPE=build/cpe python3 recipes/scan.py --dictionary $(ranges)/dictionary.json --advisories $(ranges)/advisories.json \
	--matches $(ranges)/matches.json --lists $(ranges)/web-1.cdx.json $(ranges)/web-2.cdx.json

demo: program
	build/cpe unbind < examples/names.txt
	@if command -v python3 > /dev/null; then \
	echo '$(whole_way)'; $(whole_way) || [ $$? = 1 ] || exit 1; \
	echo '$(whole_way) --all 2> /dev/null | grep CVE-2024-98001'; $(whole_way) --all 2> /dev/null | grep CVE-2024-98001; \
	else echo 'SKIPPED: the whole way from feeds to advisories: there is no python3'; fi

# (the first Python that has the libraries; Debian has them for its own)
service: program
	@for it in python3 /usr/bin/python3; do $$it -c 'import starlette, uvicorn' 2> /dev/null && { \
	CPE='$(CURDIR)/build/cpe' PYTHONPATH=service exec $$it -m cpe_service --data build/service --samples; }; done; \
	echo 'starlette and uvicorn are missing: apt-get install python3-starlette python3-uvicorn' >&2; exit 1

test: need_rt
	sh tests/gate.sh
	@$(take_program)
	sh release/release.sh compare build/cpe
	sh tests/release-checks.sh build/cpe
	sh tests/own-checks.sh build/cpe
	sh tests/manual-checks.sh build/cpe
	sh tests/recipe-checks.sh build/cpe
	sh tests/scan-checks.sh build/cpe
	sh tests/service-checks.sh build/cpe
	sh tests/library-checks.sh build/cpe
	sh tests/package-checks.sh build/cpe
	sh tests/conformance-checks.sh build/cpe

# The last step of a change to a crate below the program.
release: need_rt
	@sh release/release.sh make '$(VERSION)'

limits: program
	sh tests/limits.sh build/cpe
	@if command -v python3 > /dev/null; then \
	for it in 'tests/snapshots.py build/cpe --all' 'tests/refused-memory.py build/cpe' 'tests/stack.py build/cpe' 'bench/memory.py build/cpe --most 3' 'bench/deprecations.py build/cpe' \
		'bench/drops.py build/cpe'; do \
		echo "python3 $$it"; python3 $$it || exit 1; \
	done; \
	else echo 'SKIPPED: each allocation refused in turn, the stack that each word needs, what rows take of memory, how what edits cost grows: there is no python3'; fi

# (over what the gate proved)
wrong-bodies: need_rt
	sh tests/wrong-bodies.sh

install: program
	mkdir -p '$(DESTDIR)$(PREFIX)/bin'
	install -m 755 build/cpe '$(DESTDIR)$(PREFIX)/bin/cpe'
	mkdir -p '$(DESTDIR)$(PREFIX)/share/man/man1'
	install -m 644 docs/cpe.1 '$(DESTDIR)$(PREFIX)/share/man/man1/cpe.1'
	mkdir -p '$(DESTDIR)$(PREFIX)/share/bash-completion/completions' '$(DESTDIR)$(ZSH_COMPLETIONS)'
	install -m 644 completions/cpe.bash '$(DESTDIR)$(PREFIX)/share/bash-completion/completions/cpe'
	install -m 644 completions/_cpe '$(DESTDIR)$(ZSH_COMPLETIONS)/_cpe'
	find recipes service -name __pycache__ -prune -o -type f -exec install -D -m 644 {} '$(DESTDIR)$(PREFIX)/share/cpe/{}' \;

install-library: library
	mkdir -p '$(DESTDIR)$(PREFIX)/include' '$(DESTDIR)$(PREFIX)/lib/pkgconfig'
	install -m 644 library/cpe.h '$(DESTDIR)$(PREFIX)/include/cpe.h'
	install -m 644 build/libcpe.a '$(DESTDIR)$(PREFIX)/lib/libcpe.a'
	install -m 755 build/libcpe.so '$(DESTDIR)$(PREFIX)/lib/libcpe.so.0'
	ln -sf libcpe.so.0 '$(DESTDIR)$(PREFIX)/lib/libcpe.so'
	sed -e 's|@PREFIX@|$(PREFIX)|' -e 's|@VERSION@|$(VERSION)|' library/cpe.pc.in > '$(DESTDIR)$(PREFIX)/lib/pkgconfig/cpe.pc'

deb: program
	sh package/deb.sh '$(VERSION)' '$(MAINTAINER)' '$(PACKAGES)'

bench: need_python3 program
	sh bench/all.sh build/cpe

clean:
	rm -rf build crates/*/out

need_rt:
	@command -v rt > /dev/null || { echo "rt, the command of Rattle's kit, is not on PATH" >&2; exit 1; }

need_python3:
	@command -v python3 > /dev/null || { echo 'python3 is not on PATH' >&2; exit 1; }
