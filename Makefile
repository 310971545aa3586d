# make            the library, target/staticlib/libvault.a, and the desk programs, target/bin/holdings and months: proved, then compiled (for x86-64)
# make sample     each desk program on a sample session
# make test       the tests outside the proofs (CALLS=400000 random calls from SEED=1)
# make check      everything: the gate proves all that it has not passed on this machine, then the tests run on an archive made of what was just proved
# make bench      the library's times beside plain C's and glpk's (MODULE=1: of its module, compiled once more by the kit's clang with -O3)
# make count      what single jobs inside the library cost, in instructions (where valgrind is installed) and in time
# make sanitize   the library and the C programs of tests/ and examples/ under AddressSanitizer, UBSan and valgrind (see tests/sanitize)
# make install    library, headers, programs and manual pages, to PREFIX=/usr/local (DESTDIR=.. in front of it)
# make uninstall  takes away what install put there
# make clean      removes target/, where all that is built lies, and crates/*/out, what rt keeps of its proofs
# make help       these lines
PREFIX ?= /usr/local
CALLS ?= 400000
SEED ?= 1
# the three numbers of vault.h, with dots between
VERSION := $(shell sed -n 's/^.define VAULT_VERSION_[A-Z]* \([0-9]*\)$$/\1/p' include/vault.h | paste -s -d .)

library := target/staticlib/libvault.a
programs := target/bin/holdings target/bin/months
sources := $(wildcard crates/*/src/*.rt crates/*/specs/*.antt crates.txt)
place = $(DESTDIR)$(PREFIX)
installed := include/vault.h include/vault_util.h lib/libvault.a lib/pkgconfig/vault.pc bin/holdings bin/months share/man/man1/holdings.1 \
	share/man/man1/months.1 share/man/man3/vault.3

all: $(library) $(programs)

# The crate of an archive: a library of the same name stands below vault's.
crate = $(patsubst vault,vault_c,$(1))

# rt builds only what it proved, in the crate's folder and in the run that proves it. The layers below are taken from what a check kept, in this checkout or
# another on this machine; where none did, they are checked first, as behind the gate, which keeps what it proved for itself alone.
target/staticlib/lib%.a: $(sources)
	cd crates/$(call crate,$*) && rt lib
	install -D -m 644 crates/$(call crate,$*)/out/lib$(call crate,$*).a $@

# the module of which rt makes the archive, compiled once more: as it is, and with AddressSanitizer's checks
target/host/%.o target/asan/%.o: $(sources)
	tools/module $(call crate,$*) $*

# What a program links for a crate.
native = $(if $(MODULE),target/host/$(1).o,target/staticlib/lib$(1).a)

# rt builds a program only to run it, so it runs on an empty input. The gate's own programs are taken by tests/gate.
$(programs) target/bin/rounds: target/bin/%: $(sources)
	cd crates/$* && rt run </dev/null
	install -D crates/$*/out/$* $@

sample: $(programs)
	@for name in holdings months; do echo "$$name:" && tools/x86 run target/bin/$$name <crates/$$name/stdin || exit; done

test: all
	@tests/run $(CALLS) $(SEED)

check:
	@tests/gate

bench: $(call native,vault) $(call native,seek_c)
	@bench/run $^

count: target/bin/rounds
	@bench/count $<

sanitize: target/asan/vault.o $(call native,vault)
	@tests/sanitize $^

install: all
	sed -e 's|@prefix@|$(PREFIX)|' -e 's|@version@|$(VERSION)|' vault.pc.in >target/vault.pc
	install -D -m 644 include/vault.h $(place)/include/vault.h
	install -D -m 644 include/vault_util.h $(place)/include/vault_util.h
	install -D -m 644 $(library) $(place)/lib/libvault.a
	install -D -m 644 target/vault.pc $(place)/lib/pkgconfig/vault.pc
	install -D -m 755 target/bin/holdings $(place)/bin/holdings
	install -D -m 755 target/bin/months $(place)/bin/months
	install -D -m 644 man/holdings.1 $(place)/share/man/man1/holdings.1
	install -D -m 644 man/months.1 $(place)/share/man/man1/months.1
	install -D -m 644 man/vault.3 $(place)/share/man/man3/vault.3

uninstall:
	rm -f $(addprefix $(place)/,$(installed))

clean:
	rm -rf target crates/*/out

help:
	@sed -n 's/^# \(make .*\)/\1/p' Makefile

.PHONY: all sample test check bench count sanitize install uninstall clean help

# two runs of rt at once would be in each other's way
.NOTPARALLEL:
