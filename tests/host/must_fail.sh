#!/bin/sh
# Each of these edits of host/back_ring.c and host/front_ring.c breaks a duty of the host or of the
# driver, and a test must refuse it: must_fail.sh ARCHIVE WORKDIR
set -eu
lib=$1
work=$2
flags='-std=c11 -O1 -w -D_POSIX_C_SOURCE=200809L -Iinclude -Ihost -Iguest -Itests'
survivors=0
count=0

compile() {
    # shellcheck disable=SC2086
    gcc $flags "$@" || { echo "the edit '$edit' does not compile"; exit 1; }
}

# Whether a test refuses the edited source; one that does not end is refused as well.
refused() {
    compile -c "$work/edited.c" -o "$work/edited.o"
    for test in $tests_of_one_end; do
        # shellcheck disable=SC2086
        compile "$work/edited.o" "$work/$test.o" $beside "$lib" -o "$work/$test"
        timeout 3 "$work/$test" > /dev/null 2> "$work/complaint" || return 0
    done
    # shellcheck disable=SC2086
    compile -D"$macro"="\"$work/edited.c\"" "$interleave" $interleave_beside "$lib" \
            -o "$work/interleave"
    timeout 3 "$work/interleave" > /dev/null 2> "$work/complaint" || return 0
    return 1
}

# Begins the edits of a source: its tests of one end and the sources that these need beside it; its
# test of interleavings, the macro by which that includes it, and what that needs beside it.
edits_of() {
    source=$1
    tests_of_one_end=$2
    beside=$3
    interleave=$4
    macro=$5
    interleave_beside=$6
    edit='none'
    for test in $tests_of_one_end; do
        compile -c "tests/host/$test.c" -o "$work/$test.o"
    done
    cp "$source" "$work/edited.c"
    if refused; then
        echo "$source as it is fails as well"
        exit 1
    fi
}

edit() {
    edit=$1
    sed -e "$2" "$source" > "$work/edited.c"
    if cmp -s "$source" "$work/edited.c"; then
        echo "the edit '$edit' changes nothing"
        exit 1
    fi
    count=$((count + 1))
    if refused; then
        echo "refused: $edit: $(sed -n 's/.*does not hold: //p' "$work/complaint" | head -1)"
    else
        echo "NOT REFUSED: $edit"
        survivors=$((survivors + 1))
    fi
}

# A program of a host that goes wrong must say so by its exit status, 1.
must_end_with_1() {
    status=0
    count=$((count + 1))
    timeout 60 "$@" > "$work/complaint" 2>&1 || status=$?
    if [ "$status" -eq 1 ]; then
        echo "refused: $edit: $(tail -n 1 "$work/complaint")"
    else
        echo "NOT REFUSED: $edit (status $status)"
        survivors=$((survivors + 1))
    fi
}

edit='none'
compile -c host/back_ring.c -o "$work/back_ring.o"
compile -c host/names.c -o "$work/names.o"
compile -c tests/host/mapping.c -o "$work/mapping.o"

edits_of host/back_ring.c 'edges steps' "$work/names.o" \
         tests/host/interleave.c BACK_RING_SOURCE "$work/mapping.o"
edit 'the live page is lent' 's/ring->page, sizeof ring->page,/(uint8_t *)ring->shared, 4096,/'
edit 'slots are copied again' \
     's/^ *copy_slots(ring, req_prod);/ring->copied = ring->consumed, copy_slots(ring, req_prod);/'
edit 'no second look' 's/return !look(ring);/return true;/'
edit 'req_event is not published' '/&ring->shared->word\[RING_REQ_EVENT\],/{N;d}'
edit 'no barrier before the second look' '/Either we read the req_prod/{n;d}'
edit 'no barrier before rsp_event' '/Either we read the rsp_event/{n;d}'
edit 'rsp_event is read before rsp_prod is stored' \
     's/^    publish_replies(ring);/uint32_t old = ring->shared->word[RING_RSP_EVENT];\n&/
      s/return guest_waits(ring, slots);/return ring->published - old < slots;/'
edit 'the notify of the report is trusted' '/report->notify = notify;/d; /report->notify = 0;/d'
edit 'a notification is lost where the call is made again' 's/\*notify |= /*notify = /'
edit 'never notified' 's/return ring->published - rsp_event < slots;/return false;/'
edit 'notified one late' 's/- rsp_event < slots/- rsp_event <= slots/'
edit 'rsp_prod before the replies' \
     '/^static void publish_replies/,/^}/s/^{/{ ring->shared->word[RING_RSP_PROD] = private_word(ring->page, RING_RSP_PROD);/'
edit 'only the first slot is replied to' \
     's/for (; ring->published != end; ring->published++)/for (int i = 0; i < 1; i++, ring->published = end)/'
edit 'only the last reply is published' \
     's/for (; ring->published != end; ring->published++)/for (ring->published = end - 1; ring->published != end; ring->published++)/'
edit 'whole slots are written back' 's/first + ring->reply_words/first + ring->slot_words/'
edit 'slots count where replies wait' 's/ || unpublished(ring) > 0)$/)/'
edit 'asleep while replies wait' 's/unpublished(ring) == 0 && asks/asks/'
edit 'asleep where nothing is asked' 's/ && asks_for_more(ring)//'
edit 'references are those of the page after the call' \
     's/return ring->reference\[.*/return private_word(ring->page, ring_slot(ring->slot_words, n) + ring->reference_word);/'
edit 'a part of a frame is refused' \
     's/for (uint32_t n = ring->consumed - report->slots;/for (uint32_t n = ring->consumed - 1;/'
edit 'another frame is refused too' \
     's/for (uint32_t n = ring->consumed - report->slots;/for (uint32_t n = ring->consumed - report->slots - 1;/'
edit 'a refused frame is reported as done' '/report->answer = TOLLMEANDER_SPOILED;/d'
edit 'a ring is opened twice' 's/ring->shared != NULL || //'
edit 'a page at an odd address is taken' 's/ || (uintptr_t)shared % RING_WORD != 0//'
edit 'a closed ring stays open' 's/^    ring->shared = NULL;/;/'
edit 'a ring never opened is empty' '/^    if (ring->shared == NULL)$/{N;d}'
edit 'slots that are held are copied over' \
     's/posted <= TOLLMEANDER_RING_SLOTS - held/posted <= TOLLMEANDER_RING_SLOTS/'
edit 'slots that are held are published' \
     's/uint32_t end = private_word(ring->page, RING_RSP_PROD);/uint32_t end = ring->consumed;/'
edit 'slots that are held count as replies' \
     's/return private_word(ring->page, RING_RSP_PROD) - ring->pub/return ring->consumed - ring->pub/'
edit 'a req_prod among held slots is no overflow' \
     's/posted = req_prod - ring->consumed;/posted = req_prod - ring->published;/
      s/known - ring->consumed/known - ring->published/; s/RING_SLOTS - held/RING_SLOTS/'
edit 'slots that are held leave no room' 's/RING_SLOTS - held/RING_SLOTS - 2 * held/'
edit 'the counter of replies is not lent' 's/&transmit->replied,/\&(uint32_t){ring->consumed},/'
edit 'a record too many is lent' 's/transmit->held, transmit->records,/transmit->held, 256,/'
edit 'no records are opened' 's/records == 0 || //'
edit 'more records are opened than there are' 's/records > TOLLMEANDER_HELD_MAX ||/0 ||/'
edit 'records of an earlier connection stay' '/^    memset(transmit->held, 0/d'
edit 'replies are counted from another counter' 's/^    transmit->replied = counter;/    ;/'
edit 'a finish publishes nothing' 's/ && back_ring_publish(&transmit->ring);/;/'
edit 'a finish in steps publishes' \
     '/^                                ticket.slot, status, report);/s/$/ back_ring_publish(ring);/'
edit 'a refused finish publishes' 's/answer == TOLLMEANDER_DONE && back_ring_publish/back_ring_publish/'
edit 'the notify of a finish is lost' \
     's/^    report->notify = answer == TOLLMEANDER_DONE && .*/    back_ring_publish(\&transmit->ring);/'
edit 'every packet is finished as okay' 's/ticket.slot, status, report/ticket.slot, 0, report/'
edit 'a ticket of any connection is taken' 's/ || ticket.connection != transmit->connection//'
edit 'a ticket of a closed ring is taken' 's/ring->shared == NULL || ticket.connection/ticket.connection/'
edit 'connections are numbered by their ring' \
     's/= atomic_fetch_add_explicit(&openings.*/= transmit->connection + 1;/'
edit 'every connection has one number' 's/= atomic_fetch_add_explicit(&openings.*/= 1;/'
edit 'the first connection has the number 0' 's/\(&openings, 1, memory_order_relaxed)\) + 1/\1/'
edit 'the rest of a refusal is not written' '/^        memset(report, 0, sizeof \*report);/d'
edit 'every report has a ticket' \
     '/^struct back_ticket back_transmit_ticket/,/^}/s/report->answer == TOLLMEANDER_DONE/1/'
edit 'a ticket has no connection' '/^        ticket.connection = transmit->connection;/d'
edit 'the oldest is the last taken' 's/ticket->slot = transmit->replied;/ticket->slot = transmit->ring.consumed - 1;/'
edit 'there is always an oldest' 's/ || transmit->replied == transmit->ring.consumed//'
edit 'a closed ring has an oldest' 's/transmit->ring.shared == NULL || //'
edit 'the guest is waited for where the device is' 's/return BACK_WAIT_FOR_DEVICE;/return BACK_SLEEP;/'
edit 'no record goes on' 's/return BACK_WAIT_FOR_DEVICE;/return BACK_GO_ON;/'
edit 'no record is to be mended' '/^    case TOLLMEANDER_NO_RECORD:/{N;d}'
edit 'no room goes on' 's/^    case TOLLMEANDER_SPOILED:/&\n    case TOLLMEANDER_NO_ROOM:/'
edit 'counters compared by less-than' \
     's/if (posted <= known - ring->consumed)/if (req_prod <= known)/'
edit 'an overflow is copied' 's/else if (posted <= TOLLMEANDER_RING_SLOTS - held)/else/'
edit 'a lowered req_prod takes slots back' 's/^        req_prod = known;/        ;/'
edit 'any other req_prod is news' 's/return req_prod != known;/return true;/'
edit 'req_prod is not acquired' 's/memory_order_acquire/memory_order_relaxed/'
edit 'rsp_prod is not released' 's/memory_order_release/memory_order_relaxed/'

edits_of host/front_ring.c front_edges '' \
         tests/host/front_interleave.c FRONT_RING_SOURCE "$work/back_ring.o"
edit 'the live page is lent' 's/ring->page, sizeof ring->page,/(uint8_t *)ring->shared, 4096,/'
edit 'req_prod is read back from the page' \
     's/^    tollmeander_transmit_post(/set_private_word(ring->page, 0, ring->shared->word[0]);\n&/'
edit 'slots are free when replied to' \
     's/transmit_post(ring->replies_read,/transmit_post(ring->shared->word[RING_RSP_PROD],/'
edit 'req_prod before the slots' \
     '/^static void publish_slots/,/^}/s/^{/{ ring->shared->word[RING_REQ_PROD] = end;/'
edit 'req_prod is not released' 's/memory_order_release/memory_order_relaxed/'
edit 'a word of each slot is not published' 's/first + TRANSMIT_SLOT_WORDS/first + 2/'
edit 'the whole page is published' \
     '/^static void publish_slots/,/^}/s/^{/{ memcpy(ring->shared, ring->page, 4096);/'
edit 'req_event is read before req_prod is stored' \
     's/^        publish_slots/uint32_t old = ring->shared->word[RING_REQ_EVENT];\n&/
      s/report->notify = backend_waits(.*/report->notify = ring->posted - old < report->slots;/'
edit 'no barrier before req_event' '/Either we read the req_event/{n;d}'
edit 'the notify of the report is trusted' '/report->notify = backend_waits/d'
edit 'notified one late' 's/- req_event < slots/- req_event <= slots/'
edit 'a refused packet is published' 's/if (report->answer == TOLLMEANDER_DONE)/if (1)/'
edit 'a broken ring is posted on' \
     '/^uint32_t front_ring_post/,/^}/s/if (ring->fault != FRONT_SOUND)/if (0)/'
edit 'a fault is forgotten' '/^    ring->fault = fault;/d'
edit 'rsp_prod is not bounded' '/^    if (come > /,+1d'
edit 'rsp_prod is bounded by less-than' \
     's/come > ring->posted - ring->replies_read/come + ring->replies_read > ring->posted/'
edit 'rsp_prod is not acquired' 's/memory_order_acquire/memory_order_relaxed/'
edit 'a packet is told by its first reply' 's/come == 0 || come < flight->slots/come == 0/'
edit 'a reply is read twice' \
     '/^            status = /s/reply/atomic_load_explicit(\&ring->shared->word[at], 0)/'
edit 'ids are not tested' 's/if ((reply & ID_MASK) != /if (0 \& /'
edit 'ids of extras are not tested' 's/(is_extra ? 0 : id)/(is_extra ? reply \& ID_MASK : id)/'
edit 'statuses are not tested' 's/REPLY_DROPPED ? FRONT_SOUND/REPLY_DROPPED || 1 ? FRONT_SOUND/'
edit 'statuses of extras are not tested' 's/status == TOLLMEANDER_REPLY_NULL/1/'
edit 'any status replaces the first' 's/if (!is_extra && status ==/if (!is_extra || status ==/'
edit 'a refused reply counts' \
     's/return refuse(ring, fault);/return ring->replies_read++, refuse(ring, fault);/'
edit 'rsp_event is not published' '/^    store(ring, RING_RSP_EVENT, ring->replies_read/d'
edit 'no barrier before the second look' '/Either we read the rsp_prod/{n;d}'
edit 'no second look' 's/return replies(ring) < slots;/return true;/'

# A host that unmaps too late: in every order of what it and the guest do, and beside a guest that
# runs meanwhile.
edit='unmapped after the replies, every interleaving'
compile -DUNMAP_LATE -DBACK_RING_SOURCE='"back_ring.c"' tests/host/interleave.c "$work/mapping.o" \
        "$lib" -o "$work/late"
must_end_with_1 "$work/late"
edit='unmapped after the replies, two threads'
compile -pthread tests/host/returned.c "$work/mapping.o" "$work/back_ring.o" "$lib" \
        -o "$work/returned"
must_end_with_1 "$work/returned" 20000 late

echo "$count edits, $survivors not refused"
[ "$survivors" -eq 0 ]
