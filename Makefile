# make                  build/libtollmeander.a, proved; build/libtollmeander-host.a, which is host/
# make install PREFIX=..  both archives, their headers and pkg-config files
# make demo             eight guests and the host between them
# make test             the gate: all proofs, then all tests
# make bench            the library beside plain C
# make xen              build/tollmeander-xen, a host for real Xen guests (needs libxen-dev)
# make live             boots Xen and Linux guests under QEMU, and serves them (needs network, root, minutes)
# make soak SECONDS=..  the differential test for so long
.DEFAULT_GOAL := lib
include c.mk
include bench.mk
include live.mk

.PHONY: test soak clean
SECONDS ?= 600

# Proves what changed since the last time, and compiles.
SOURCES := crates.txt $(shell find crates -name out -prune -o \( -name '*.rt' -o -name '*.antt' \) -print 2>/dev/null)
target/staticlib/libtollmeander.a: $(SOURCES)
	tools/archive.sh

test:
	.ci/run

soak: target/staticlib/libtollmeander.a
	cd tests && TOLLMEANDER_LIB=$(abspath $(<D)) cargo run -q --release --offline -p differential -- \
	    run --seconds $(SECONDS) --seed $$(date +%s)

clean:
	rm -rf target build tests/target crates/*/out
