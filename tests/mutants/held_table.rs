//! Wrong variants of the second program's list of held packets, in take and finish: edits of its source, each of which
//! must be found exactly once.

use super::table::{edit, mutant, Mutant};

pub const HELD_MUTANTS: &[Mutant] = &[
    // What a list must be.
    mutant(
        "held_gap_accepted",
        &[edit("held.rs", "(Fault::Uncovered, owners.contains(&0))", "(Fault::Uncovered, false)")],
    ),
    mutant(
        "held_last_gap_accepted",
        &[edit("held.rs", "owners.contains(&0)", "owners.iter().rev().skip(1).any(|&owners| owners == 0)")],
    ),
    mutant("held_overlap_accepted", &[edit("held.rs", "any(|&owners| owners > 1)", "any(|_| false)")]),
    mutant(
        "held_record_elsewhere_accepted",
        &[edit("held.rs", "(self.ticket.into(), from) + u64::from(self.slots) <= count", "(0, 0) <= count")],
    ),
    mutant(
        "held_record_behind_the_counters_accepted",
        &[edit("held.rs", "+ u64::from(self.slots) <= count", "<= count")],
    ),
    mutant(
        "held_record_across_the_end_accepted",
        &[edit("held.rs", "+ u64::from(self.slots) <= count", "< count")],
    ),
    mutant(
        "held_slots_by_place_on_the_ring",
        &[
            edit("held.rs", "minus(slot, self.ticket.into()) <", "minus(slot, self.ticket.into()) % 256 <"),
            edit("held.rs", "minus(self.ticket.into(), from) +", "minus(self.ticket.into(), from) % 256 +"),
        ],
    ),
    mutant(
        "held_slots_by_plain_less_than",
        &[edit(
            "held.rs",
            "minus(slot, self.ticket.into()) < self.slots.into()",
            "(u64::from(self.ticket)..u64::from(self.ticket) + u64::from(self.slots)).contains(&slot)",
        )],
    ),
    mutant(
        "held_257_records_accepted",
        &[edit("held.rs", "MOST_RECORDS: usize = 256", "MOST_RECORDS: usize = 257")],
    ),
    mutant(
        "held_256_records_refused",
        &[edit("held.rs", "MOST_RECORDS: usize = 256", "MOST_RECORDS: usize = 255")],
    ),
    mutant(
        "held_used_records_counted",
        &[edit("held.rs", "self.list.len() > MOST_RECORDS", "self.held().count() > MOST_RECORDS")],
    ),
    mutant("held_257_slots_accepted", &[edit("held.rs", "count > RING_SLOTS {", "count > RING_SLOTS + 1 {")]),
    mutant("held_256_slots_refused", &[edit("held.rs", "count > RING_SLOTS {", "count >= RING_SLOTS {")]),
    mutant(
        "held_19_data_slots_accepted",
        &[edit("held.rs", "slots - extras <= DATA_LIMIT", "slots - extras <= DATA_LIMIT + 1")],
    ),
    mutant(
        "held_18_data_slots_refused",
        &[edit("held.rs", "slots - extras <= DATA_LIMIT", "slots - extras < DATA_LIMIT")],
    ),
    mutant(
        "held_extras_counted_as_data",
        &[edit("held.rs", "slots - extras <= DATA_LIMIT", "slots <= DATA_LIMIT")],
    ),
    mutant(
        "held_5_extras_accepted",
        &[edit("held.rs", "extras <= EXTRA_LIMIT &&", "extras <= EXTRA_LIMIT + 1 &&")],
    ),
    mutant(
        "held_4_extras_refused",
        &[edit("held.rs", "extras <= EXTRA_LIMIT &&", "extras < EXTRA_LIMIT &&")],
    ),
    mutant("held_only_extras_accepted", &[edit("held.rs", "extras < slots &&", "extras <= slots &&")]),
    mutant(
        "held_status_of_16_bits_accepted",
        &[edit(
            "held.rs",
            "!is_status(record.status))",
            "!is_status(record.status) && !is_status((record.status as i16).into()))",
        )],
    ),
    mutant(
        "held_statuses_not_tested",
        &[edit("held.rs", "self.held().any(|record| !is_status(record.status))", "false")],
    ),
    mutant(
        "held_status_before_the_end_refused",
        &[edit(
            "held.rs",
            "!is_status(record.status))",
            "!is_status(record.status) || !record.is_finished() && record.status != 0)",
        )],
    ),
    mutant(
        "held_dropped_refused",
        &[edit("held.rs", "[OKAY, ERROR, DROPPED].into_iter()", "[OKAY, ERROR].into_iter()")],
    ),
    mutant(
        "held_finished_oldest_accepted",
        &[edit("held.rs", "oldest.is_some_and(|record| record.is_finished())", "false")],
    ),
    mutant(
        "held_first_of_the_list_taken_as_oldest",
        &[edit(
            "held.rs",
            "let oldest = self.place_of(self.replied).map(|place| self.list[place]);",
            "let oldest = self.held().next().copied();",
        )],
    ),
    mutant("held_finished_by_1_only", &[edit("held.rs", "self.finished != 0", "self.finished == 1")]),
    mutant(
        "held_junk_refused",
        &[edit(
            "held.rs",
            "self.held().any(|record| !is_status(record.status))",
            "self.list.iter().any(|record| !is_status(record.status))",
        )],
    ),
    // The order of answers.
    mutant(
        "held_17_after_2",
        &[edit("transmit.rs", "!queue.faults().is_empty()", "queue.halted == 0 && !queue.faults().is_empty()")],
    ),
    mutant(
        "held_17_before_1",
        &[edit(
            "transmit.rs",
            "lent.page.len() != ring::PAGE_BYTES",
            "queue.faults().is_empty() && lent.page.len() != ring::PAGE_BYTES",
        )],
    ),
    mutant(
        "held_15_before_17",
        &[edit(
            "finish.rs",
            "!queue.faults().is_empty()",
            "queue.place_of(ticket).is_some() && is_status(status) && !queue.faults().is_empty()",
        )],
    ),
    mutant(
        "held_17_before_1_in_a_finish",
        &[edit(
            "finish.rs",
            "page.len() != ring::PAGE_BYTES",
            "queue.faults().is_empty() && page.len() != ring::PAGE_BYTES",
        )],
    ),
    mutant(
        "held_14_before_8",
        &[edit("transmit.rs", "cause.is_none() &&", "cause.is_none() && queue.first_free().is_some() &&")],
    ),
    mutant(
        "held_7_in_place_of_14",
        &[edit(
            "transmit.rs",
            "return Outcome::refused(queue, NO_RECORD);",
            "let Some((cause, place)) = cause else { return Outcome::refused(queue, NO_RECORD) };
            let mut queue = queue;
            queue.list.push(Held::FREE);
            let last = queue.list.len() - 1;
            let mut outcome = spoil(queue, lent.page, &packet, last, (cause, place));
            outcome.queue.list.pop();
            return outcome;",
        )],
    ),
    mutant(
        "held_14_before_6",
        &[edit(
            "transmit.rs",
            "Front::Beginning => Outcome::asking",
            "Front::Beginning if queue.first_free().is_none() => Outcome::refused(queue, NO_RECORD),
            Front::Beginning => Outcome::asking",
        )],
    ),
    mutant(
        "held_14_before_5",
        &[edit(
            "transmit.rs",
            "Front::Misshapen =>",
            "Front::Misshapen if queue.first_free().is_none() => Outcome::refused(queue, NO_RECORD),
            Front::Misshapen =>",
        )],
    ),
    mutant(
        "held_14_before_4",
        &[edit(
            "transmit.rs",
            "    if posted == 0 {",
            "    if queue.first_free().is_none() { return Outcome::refused(queue, NO_RECORD); }
            if posted == 0 {",
        )],
    ),
    mutant(
        "held_14_halts",
        &[edit("transmit.rs", "Outcome::refused(queue, NO_RECORD)", "halting(queue, NO_RECORD)")],
    ),
    // Overflow.
    mutant(
        "held_overflow_by_slots_consumed",
        &[edit(
            "transmit.rs",
            "unreplied > ring::RING_SLOTS",
            "ring::posted(lent.page, queue.consumed) > ring::RING_SLOTS",
        )],
    ),
    mutant(
        "held_overflow_not_tested_below_the_slots_held",
        &[
            edit("transmit.rs", "|| unreplied < queue.held_slots() {", "{"),
            edit(
                "transmit.rs",
                "unreplied - queue.held_slots();",
                "unreplied.saturating_sub(queue.held_slots());",
            ),
        ],
    ),
    mutant(
        "held_overflow_at_the_slots_held",
        &[edit(
            "transmit.rs",
            "unreplied < queue.held_slots()",
            "unreplied <= queue.held_slots() && queue.held_slots() > 0",
        )],
    ),
    mutant(
        "held_finish_tests_overflow",
        &[edit(
            "finish.rs",
            "let waiting =",
            "if ring::posted(page, queue.replied) > ring::RING_SLOTS {
                return Outcome::refused(queue, OVERFLOW);
            }
            let waiting =",
        )],
    ),
    // What a take leaves.
    mutant(
        "held_last_free_record_taken",
        &[edit(
            "held.rs",
            "position(|record| !record.in_use())",
            "rposition(|record| !record.in_use())",
        )],
    ),
    mutant(
        "held_status_in_a_free_record_kept",
        &[edit("transmit.rs", "status: status.into(), finished };", "status: queue.list[free].status, finished };")],
    ),
    mutant(
        "held_mark_in_a_free_record_kept",
        &[edit(
            "transmit.rs",
            "status: status.into(), finished };",
            "status: status.into(), finished: finished | queue.list[free].finished };",
        )],
    ),
    mutant(
        "held_extras_lost",
        &[edit("transmit.rs", "(packet.slots() as u32, packet.extras.len() as u32);", "(packet.slots() as u32, 0);")],
    ),
    mutant(
        "held_slots_without_extras",
        &[edit(
            "transmit.rs",
            "queue.list[free] = Held { ticket: queue.consumed as u32, slots,",
            "queue.list[free] = Held { ticket: queue.consumed as u32, slots: slots - extras,",
        )],
    ),
    mutant("held_ticket_word_missing", &[edit("transmit.rs", "ticket: ticket as u32,", "ticket: 0,")]),
    mutant(
        "held_ticket_by_the_records_place",
        &[edit("transmit.rs", "done_report(packet, queue.consumed)", "done_report(packet, free as u64)")],
    ),
    mutant(
        "held_ticket_by_replies_sent",
        &[edit("transmit.rs", "done_report(packet, queue.consumed)", "done_report(packet, queue.replied)")],
    ),
    mutant(
        "held_ticket_reported_for_7",
        &[edit(
            "transmit.rs",
            "cause, place, slots, notify, ..",
            "cause, place, slots, notify, ticket: (queue.consumed as u32).wrapping_sub(slots), ..",
        )],
    ),
    mutant(
        "held_done_take_replies_at_once",
        &[edit(
            "transmit.rs",
            "hold(&mut queue, free, packet, OKAY, 0);",
            "hold(&mut queue, free, packet, OKAY, 1);
            let Sent { notify, changes, .. } = release(&mut queue, lent.page);
            let report = Report { notify, ..report };
            if !changes.is_empty() {
                return Outcome { report, queue, changes };
            }",
        )],
    ),
    mutant(
        "held_done_take_notifies_by_slots_consumed",
        &[edit(
            "transmit.rs",
            "let bytes = joined(packet, lent);",
            "let old = super::words::minus(queue.consumed, packet.slots() as u64);
            let report = Report { notify: ring::notify(lent.page, ring::RSP_EVENT, old, queue.consumed), ..report };
            let bytes = joined(packet, lent);",
        )],
    ),
    mutant(
        "held_spoiled_take_notifies_by_slots_consumed",
        &[edit(
            "transmit.rs",
            "let (slots, place) =",
            "let old = super::words::minus(queue.consumed, packet.slots() as u64);
            let notify = ring::notify(page, ring::RSP_EVENT, old, queue.consumed);
            let (slots, place) =",
        )],
    ),
    mutant(
        "held_ids_taken_with_the_packet",
        &[
            edit(
                "transmit.rs",
                "    Outcome { report, queue, changes: vec![Change { buffer: Buffer::Frame, at: 0, bytes }] }",
                "    let ids = (0..packet.slots() as u64).map(|k| {
                    let at = ring::slot_at(12, plus(report.ticket.into(), k));
                    ring::on_page(at, lent.page[at + 8..at + 10].to_vec())
                });
                let changes = ids.chain([Change { buffer: Buffer::Frame, at: 0, bytes }]).collect();
                Outcome { report, queue, changes }",
            ),
            edit("finish.rs", "data(slot).id,", "u16::from_le_bytes([slot[0], slot[1]]),"),
        ],
    ),
    mutant(
        "held_halting_leaves_nothing_to_finish",
        &[edit(
            "transmit.rs",
            "TransmitQueue { halted: 1, ..queue }",
            "TransmitQueue { halted: 1, replied: queue.consumed, list: vec![Held::FREE; queue.list.len()], ..queue }",
        )],
    ),
    // Spoiled packets.
    mutant(
        "held_spoiled_record_not_zeroed",
        &[
            edit(
                "transmit.rs",
                "hold(&mut queue, free, packet, ERROR, 1);",
                "let junk = queue.list[free]; hold(&mut queue, free, packet, ERROR, 1);",
            ),
            edit(
                "transmit.rs",
                "let (slots, place) =",
                "if !queue.list[free].in_use() { queue.list[free] = junk; } let (slots, place) =",
            ),
        ],
    ),
    mutant(
        "held_spoiled_packet_is_okay_in_its_turn",
        &[edit(
            "transmit.rs",
            "hold(&mut queue, free, packet, ERROR, 1);",
            "let status = if queue.held_slots() > 0 { OKAY } else { ERROR };
            hold(&mut queue, free, packet, status, 1);",
        )],
    ),
    mutant(
        "held_spoiled_packet_waits_for_the_host",
        &[edit("transmit.rs", "free, packet, ERROR, 1);", "free, packet, ERROR, 0);")],
    ),
    // What a finish takes.
    mutant(
        "held_finished_twice",
        &[edit("finish.rs", ".filter(|&place| !queue.list[place].is_finished());", ";")],
    ),
    mutant(
        "held_ticket_within_a_packet_taken",
        &[edit("held.rs", "record.in_use() && u64::from(record.ticket) == ticket", "record.owns(ticket)")],
    ),
    mutant(
        "held_ticket_by_its_place_on_the_ring",
        &[edit(
            "finish.rs",
            "queue.place_of(ticket).filter(",
            "queue.list.iter().position(|x| x.in_use() && x.ticket % 256 == ticket as u32 % 256).filter(",
        )],
    ),
    mutant(
        "held_ticket_in_16_bits",
        &[edit(
            "finish.rs",
            "queue.place_of(ticket).filter(",
            "queue.list.iter().position(|x| x.in_use() && x.ticket as u16 == ticket as u16).filter(",
        )],
    ),
    mutant(
        "held_ticket_of_a_free_record_taken",
        &[edit(
            "finish.rs",
            "queue.place_of(ticket).filter(",
            "queue.list.iter().position(|x| u64::from(x.ticket) == ticket).filter(",
        )],
    ),
    mutant(
        "held_finish_of_the_oldest_only",
        &[edit("finish.rs", "queue.place_of(ticket).filter(", "queue.place_of(queue.replied).filter(")],
    ),
    mutant(
        "held_status_of_16_bits_reported",
        &[edit(
            "finish.rs",
            "waiting.filter(|_| is_status(status))",
            "waiting.filter(|_| is_status((status as i16).into()))",
        )],
    ),
    mutant(
        "held_any_status_taken",
        &[edit("finish.rs", "waiting.filter(|_| is_status(status))", "waiting.filter(|_| true)")],
    ),
    mutant(
        "held_null_status_taken",
        &[edit("finish.rs", "|_| is_status(status))", "|_| is_status(status) || status == i32::from(NULL))")],
    ),
    // What leaves, and what stays.
    mutant(
        "held_reply_out_of_turn",
        &[edit(
            "finish.rs",
            "queue.place_of(next).filter(|&place| queue.list[place].is_finished())",
            "queue.list.iter().position(|record| record.in_use() && record.is_finished())",
        )],
    ),
    mutant(
        "held_all_leave",
        &[edit(
            "finish.rs",
            "queue.place_of(next).filter(|&place| queue.list[place].is_finished())",
            "queue.place_of(next)",
        )],
    ),
    mutant(
        "held_one_leaves_at_a_time",
        &[edit(
            "finish.rs",
            "queue.list[place] = Held::FREE;",
            "queue.list[place] = Held::FREE; if true { break; }",
        )],
    ),
    mutant(
        "held_status_lost",
        &[edit("finish.rs", "Held { status, finished: 1,", "Held { finished: 1,")],
    ),
    mutant(
        "held_status_stored_in_16_bits",
        &[edit("finish.rs", "Held { status, finished: 1,", "Held { status: status & 0xFFFF, finished: 1,")],
    ),
    mutant(
        "held_finished_stored_as_all_ones",
        &[edit("finish.rs", "Held { status, finished: 1,", "Held { status, finished: u32::MAX,")],
    ),
    mutant(
        "held_okay_for_all_that_leave",
        &[edit("finish.rs", "data(slot).id, record.status as i16", "data(slot).id, 0")],
    ),
    mutant(
        "held_ids_read_where_replies_have_them",
        &[edit("finish.rs", "data(slot).id,", "u16::from_le_bytes([slot[0], slot[1]]),")],
    ),
    mutant(
        "held_extras_read_off_the_ring",
        &[edit(
            "finish.rs",
            "if (1..=record.extras).contains(&place) {",
            "let extras = super::grammar::extras_of(&slots).map_or(record.extras, |extras| extras as u32);
            if (1..=extras).contains(&place) {",
        )],
    ),
    mutant(
        "held_extras_at_the_packets_end",
        &[edit(
            "finish.rs",
            "(1..=record.extras).contains(&place)",
            "(record.slots - record.extras..record.slots).contains(&place)",
        )],
    ),
    mutant(
        "held_record_not_freed",
        &[edit("finish.rs", "queue.list[place] = Held::FREE;", "")],
    ),
    mutant(
        "held_record_freed_by_its_slots_only",
        &[edit("finish.rs", "queue.list[place] = Held::FREE;", "queue.list[place].slots = 0;")],
    ),
    mutant(
        "held_rsp_prod_by_slots_consumed",
        &[edit(
            "finish.rs",
            "    queue.replied = sent.counter;",
            "    let mut sent = sent;
            if let Some(last) = sent.changes.last_mut() {
                *last = ring::header_word(ring::RSP_PROD, queue.consumed);
            }
            queue.replied = sent.counter;",
        )],
    ),
    mutant("held_rsp_prod_written_without_replies", &[edit("ring.rs", "if slots > 0 {", "if slots < 999 {")]),
    mutant(
        "held_finish_notifies_by_slots_consumed",
        &[edit(
            "finish.rs",
            "    queue.replied = sent.counter;",
            "    let notify = ring::notify(page, ring::RSP_EVENT, queue.replied, queue.consumed);
            let sent = Sent { notify, ..sent };
            queue.replied = sent.counter;",
        )],
    ),
    mutant(
        "held_finish_reports_its_packets_slots",
        &[
            edit("finish.rs", "let mut queue = queue;", "let mut queue = queue; let own = queue.list[place].slots;"),
            edit("finish.rs", "slots: slots as u32, notify,", "slots: own, notify,"),
        ],
    ),
    mutant(
        "held_finish_reports_the_ticket",
        &[edit("finish.rs", "slots: slots as u32, notify,", "slots: slots as u32, notify, ticket: ticket as u32,")],
    ),
    mutant(
        "held_replied_moves_to_slots_consumed",
        &[edit(
            "finish.rs",
            "queue.replied = sent.counter;",
            "queue.replied = if sent.slots > 0 { queue.consumed } else { sent.counter };",
        )],
    ),
];
