# The C side: library and header, install, demo, tests.
#
#   lib                 the library, host/ as an archive, and their pkg-config files, in build/
#   install PREFIX=..   both archives, headers and pkg-config files (DESTDIR is heeded)
#   demo                builds the demo and runs it (DEMO_OPTIONS="--packets 1000")
#   test-c              tests/c/run.sh
#   test-programs       builds what the tests run
#   warnings            prints the warnings that C compiles without

include settings.mk

TOLLMEANDER_VERSION ?= 0.5.0
PREFIX ?= /usr/local

OBJECT_FLAGS := $(C_FLAGS) -O2 -g -D_POSIX_C_SOURCE=200809L -pthread
# The thread sanitizer does not know fences; freedom from races does not rest on them.
TSAN_FLAGS := -fsanitize=thread -O1 -Wno-tsan

LIB := $(BUILD)/libtollmeander.a
HOST_LIB := $(BUILD)/libtollmeander-host.a
PC := $(BUILD)/tollmeander.pc $(BUILD)/tollmeander-host.pc
DEMO := $(BUILD)/tollmeander-demo

# Both ends of a ring, and the names of answers.
HOST_PARTS := $(addprefix host/,back_ring front_ring names)
HOST_HEADERS := $(addprefix host/,back_ring.h front_ring.h names.h guest_memory.h grant_table.h)
# These and the simulated guest, which demo and tests share.
GUEST_PARTS := $(HOST_PARTS) \
               $(addprefix guest/,slot_ring guest_pages traffic sender poster receiver device)
DEMO_PARTS := $(GUEST_PARTS) $(addprefix demo/,guest vif options outcome progress table main)
THREAD_PARTS := $(GUEST_PARTS) $(addprefix tests/host/,channel host_side mapping run)

CALL_TESTS := layout take finish put post
THREAD_TESTS := transmit_run receive_run post_run hostile_transmit hostile_receive returned
RING_TESTS := edges steps interleave front_edges front_interleave
TEST_PROGRAMS := $(addprefix $(BUILD)/tests/,$(CALL_TESTS) $(RING_TESTS) $(THREAD_TESTS)) \
                 $(addprefix $(BUILD)/tsan/,$(THREAD_TESTS))

.PHONY: lib install demo test-c test-programs warnings

lib: $(LIB) $(HOST_LIB) $(PC)

$(LIB): $(TOLLMEANDER_LIB)
	@mkdir -p $(@D)
	@cp $< $@

# To be linked into shared objects too.
$(HOST_PARTS:%=$(BUILD)/obj/%.o): OBJECT_FLAGS += -fPIC
$(HOST_LIB): $(HOST_PARTS:%=$(BUILD)/obj/%.o)
	@rm -f $@
	$(SAY)$(AR) rcs $@ $^

# Written anew each time, as PREFIX may be another.
$(PC): $(BUILD)/%.pc: %.pc.in FORCE
	@mkdir -p $(@D)
	@sed -e 's|@PREFIX@|$(abspath $(PREFIX))|' -e 's|@VERSION@|$(TOLLMEANDER_VERSION)|' $< > $@

install: lib
	install -d $(DESTDIR)$(PREFIX)/lib/pkgconfig $(DESTDIR)$(PREFIX)/include/tollmeander
	install -m 644 $(LIB) $(HOST_LIB) $(DESTDIR)$(PREFIX)/lib/
	install -m 644 include/tollmeander.h $(DESTDIR)$(PREFIX)/include/
	install -m 644 $(HOST_HEADERS) $(DESTDIR)$(PREFIX)/include/tollmeander/
	install -m 644 $(PC) $(DESTDIR)$(PREFIX)/lib/pkgconfig/

demo: $(DEMO)
	@$(DEMO) $(DEMO_OPTIONS)

test-c: $(TOLLMEANDER_LIB)
	tests/c/run.sh $(TOLLMEANDER_LIB)

test-programs: $(TEST_PROGRAMS) $(DEMO)

warnings:
	@echo $(C_WARNINGS)

$(BUILD)/obj/%.o: %.c
	@mkdir -p $(@D)
	$(SAY)$(CC) $(OBJECT_FLAGS) -c $< -o $@

$(BUILD)/obj-tsan/%.o: %.c
	@mkdir -p $(@D)
	$(SAY)$(CC) $(OBJECT_FLAGS) $(TSAN_FLAGS) -c $< -o $@

$(DEMO): $(DEMO_PARTS:%=$(BUILD)/obj/%.o) $(LIB)
	$(SAY)$(CC) $^ -o $@

$(CALL_TESTS:%=$(BUILD)/tests/%): $(BUILD)/tests/%: $(BUILD)/obj/tests/c/%.o \
                                  $(BUILD)/obj/tests/c/lent.o $(LIB)
	@mkdir -p $(@D)
	$(SAY)$(CC) $^ -o $@

# A test of interleavings includes its ring's source, with hooks in it.
$(BUILD)/tests/edges: $(BUILD)/obj/host/back_ring.o
$(BUILD)/tests/steps: $(BUILD)/obj/host/back_ring.o $(BUILD)/obj/host/names.o
$(BUILD)/tests/interleave: $(BUILD)/obj/tests/host/mapping.o
$(BUILD)/tests/front_edges: $(BUILD)/obj/host/front_ring.o
$(BUILD)/tests/front_interleave: $(BUILD)/obj/host/back_ring.o
$(RING_TESTS:%=$(BUILD)/tests/%): $(BUILD)/tests/%: $(BUILD)/obj/tests/host/%.o $(LIB)
	@mkdir -p $(@D)
	$(SAY)$(CC) $(filter %.o,$^) $(LIB) -o $@

$(THREAD_TESTS:%=$(BUILD)/tests/%): $(BUILD)/tests/%: $(BUILD)/obj/tests/host/%.o \
                                    $(THREAD_PARTS:%=$(BUILD)/obj/%.o) $(LIB)
	@mkdir -p $(@D)
	$(SAY)$(CC) -pthread $^ -o $@

$(THREAD_TESTS:%=$(BUILD)/tsan/%): $(BUILD)/tsan/%: $(BUILD)/obj-tsan/tests/host/%.o \
                                   $(THREAD_PARTS:%=$(BUILD)/obj-tsan/%.o) $(LIB)
	@mkdir -p $(@D)
	$(SAY)$(CC) -pthread $(TSAN_FLAGS) $^ -o $@

-include $(shell find $(BUILD)/obj $(BUILD)/obj-tsan -name '*.d' 2>/dev/null)
