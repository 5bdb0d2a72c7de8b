# The host for real Xen guests, and the run that serves some.
#
#   xen                 build/tollmeander-xen, where Debian's libxen-dev is installed
#   xen XEN=/root       the same with that package, and what it needs, unpacked below /root
#   xen-test            runs its queues over a pretended Xen
#   live                boots Xen, dom0 and guests under QEMU and judges what they say (tests/live/README.md)
#   live ONLY="halt"    only these cases
#   live LIVE_SANITIZE=1  with the host under the address and undefined-behaviour sanitizers

include settings.mk

XEN ?=
LIVE ?= $(BUILD)/live
LIVE_SANITIZE ?=

XEN_PROGRAM := $(BUILD)/tollmeander-xen
XEN_PARTS := $(addprefix xen/,main vifs vif queue device pages outbox answerer counters table store xen) \
             host/back_ring host/names
XEN_SANITIZE := $(if $(LIVE_SANITIZE),-fsanitize=address -fsanitize=undefined -fno-sanitize-recover=all)
XEN_FLAGS := $(C_FLAGS) -Ixen -O2 -g -D_POSIX_C_SOURCE=200809L $(XEN_SANITIZE) \
             $(if $(XEN),-isystem $(XEN)/usr/include)
XEN_LIB := $(XEN)/usr/lib/x86_64-linux-gnu
# Not static: libxenstore.a has no thread that reads watches, so poll() never tells of one.
XEN_LINK := $(if $(XEN),-L$(XEN_LIB) -Xlinker -rpath-link -Xlinker $(XEN_LIB)) -lxenstore -lxengnttab -lxenevtchn \
            $(XEN_SANITIZE) $(if $(LIVE_SANITIZE),-static-libasan -static-libubsan)
XEN_HEADERS := xenstore.h xengnttab.h xenevtchn.h
XEN_TEST_PARTS := $(addprefix tests/live/,queue_test pretend) $(filter-out xen/main xen/xen,$(XEN_PARTS))
XEN_OBJECTS := $(patsubst %,$(BUILD)/xen/%.o,$(sort $(XEN_PARTS) $(XEN_TEST_PARTS)))

.PHONY: xen xen-there xen-objects xen-test live

xen: xen-there $(XEN_PROGRAM)

# What needs no library.
xen-objects: $(XEN_OBJECTS)

xen-test: xen-there $(BUILD)/xen/queue_test
	@$(BUILD)/xen/queue_test

# Says what is missing, before a compiler does at length.
xen-there:
	@for header in $(XEN_HEADERS); do echo "#include <$$header>"; done | \
	    $(CC) $(if $(XEN),-isystem $(XEN)/usr/include) -E - > /dev/null 2>&1 || { \
	    echo "make xen: $(XEN_HEADERS) are not all there$(if $(XEN), below $(XEN)/usr/include):" \
	         "install Debian's package libxen-dev, or unpack it and give XEN=/where/it/is" >&2; exit 1; }

live: $(TOLLMEANDER_LIB)
	@LIVE="$(LIVE)" LIVE_SANITIZE="$(LIVE_SANITIZE)" tests/live/run.sh $(TOLLMEANDER_LIB)

$(XEN_OBJECTS): $(BUILD)/xen/%.o: %.c | xen-there
	@mkdir -p $(@D)
	$(SAY)$(CC) $(XEN_FLAGS) -c $< -o $@

$(XEN_PROGRAM): $(XEN_PARTS:%=$(BUILD)/xen/%.o) $(TOLLMEANDER_LIB)
	$(SAY)$(CC) $^ $(XEN_LINK) -o $@

$(BUILD)/xen/queue_test: $(XEN_TEST_PARTS:%=$(BUILD)/xen/%.o) $(TOLLMEANDER_LIB)
	$(SAY)$(CC) $^ $(XEN_SANITIZE) -o $@

-include $(shell find $(BUILD)/xen -name '*.d' 2>/dev/null)
