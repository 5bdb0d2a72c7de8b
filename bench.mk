# The bench: the library beside plain C.
#
#   bench         builds and runs it (BENCH_OPTIONS=--quick for a few seconds; BENCH_PAD=16, 32 or 48 moves the
#                 library's code on by so many bytes of a cache line)
#   bench-floor   the same with a second copy of plain C as the library: how far ratios can be trusted
#   bench-check   the library's differential test over plain C, and both beside each other

include settings.mk

BENCH_PAD ?= 0

# The library is compiled for any x86-64, and so is plain C. Nothing is optimised across the two. Where gcc sees that a
# length is at most a page, it would copy and clear by "rep", which takes twice as long as a call for 64 bytes. Short
# loops begin where they are fast: else the linker decides on up to a third of the time of a long list.
BENCH_PLAIN_FLAGS := -O3 -march=x86-64 -mtune=generic -mstringop-strategy=libcall \
                     -falign-functions=64 -falign-loops=32
BENCH_PLAIN := $(CC) $(shell $(CC) -dumpfullversion) $(C_STANDARD) $(BENCH_PLAIN_FLAGS)

BENCH_PARTS := scene measure agree rows table bench
BENCH_OBJECTS := $(addprefix $(BUILD)/bench/,plain.o $(BENCH_PARTS:%=%.o))
# Plain C under the library's names.
BENCH_YARDSTICK := $(BUILD)/bench/yardstick/libtollmeander.a

.PHONY: bench bench-floor bench-check bench-yardstick

bench: $(BUILD)/bench/bench
	@bench/run.sh $< $(BENCH_OPTIONS)

bench-floor: $(BUILD)/bench/bench-floor
	@bench/run.sh $< $(BENCH_OPTIONS)

bench-check:
	@bench/check.sh

bench-yardstick: $(BENCH_YARDSTICK)

$(BUILD)/bench/plain.o: bench/plain.c
	@mkdir -p $(@D)
	$(SAY)$(CC) $(C_FLAGS) $(BENCH_PLAIN_FLAGS) -c $< -o $@

$(BENCH_PARTS:%=$(BUILD)/bench/%.o): $(BUILD)/bench/%.o: bench/%.c
	@mkdir -p $(@D)
	$(SAY)$(CC) $(C_FLAGS) -O2 -DBENCH_PLAIN='"$(BENCH_PLAIN)"' -c $< -o $@

$(BENCH_YARDSTICK): $(BUILD)/bench/plain.o
	@mkdir -p $(@D)
	$(SAY)objcopy --redefine-sym plain_transmit_take=tollmeander_transmit_take \
	    --redefine-sym plain_transmit_finish=tollmeander_transmit_finish \
	    --redefine-sym plain_receive_put=tollmeander_receive_put \
	    --redefine-sym plain_transmit_post=tollmeander_transmit_post $< $(@D)/plain.o && \
	    rm -f $@ && ar rcs $@ $(@D)/plain.o

# Stands before the library.
$(BUILD)/bench/pad.o: FORCE
	@mkdir -p $(@D)
	@printf '.text\n.p2align 6\n.fill %d, 1, 0x90\n.section .note.GNU-stack\n' $(BENCH_PAD) | \
	    $(CC) -c -x assembler - -o $@

# Linked each time, as TOLLMEANDER_LIB may be another. memcpy is found at the start, not at the first call.
$(BUILD)/bench/bench: $(BENCH_OBJECTS) $(BUILD)/bench/pad.o $(TOLLMEANDER_LIB) FORCE
	$(SAY)$(CC) -Wl,-z,now $(filter-out FORCE,$^) -o $@

$(BUILD)/bench/bench-floor: $(BENCH_OBJECTS) $(BENCH_YARDSTICK)
	$(SAY)$(CC) -Wl,-z,now $^ -o $@

-include $(wildcard $(BUILD)/bench/*.d)
