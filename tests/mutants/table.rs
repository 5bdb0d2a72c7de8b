//! Wrong variants of the second program's take and put: edits of its source, each of which must be found exactly once.
//! Those of the list of held packets have a table of their own.

pub struct Mutant {
    pub name: &'static str,
    pub edits: &'static [Edit],
}

pub struct Edit {
    /// A file of the second program.
    pub file: &'static str,
    pub right: &'static str,
    pub wrong: &'static str,
}

pub const fn edit(file: &'static str, right: &'static str, wrong: &'static str) -> Edit {
    Edit { file, right, wrong }
}

pub const fn mutant(name: &'static str, edits: &'static [Edit]) -> Mutant {
    Mutant { name, edits }
}

/// The first five are document 01's traps.
pub const MUTANTS: &[Mutant] = &[
    mutant(
        "first_size_taken_as_its_part",
        &[edit(
            "transmit.rs",
            "packet.first.size as i64 - later_sizes(packet) as i64;",
            "packet.first.size as i64;",
        )],
    ),
    mutant(
        "counters_compared_with_plain_less_than",
        &[edit("ring.rs", "minus(req_prod(page), counter)", "req_prod(page).saturating_sub(counter)")],
    ),
    mutant(
        "slot_0_replied_to_before_grants_are_tested",
        &[edit(
            "finish.rs",
            "id, record.status as i16",
            "id, if place == 0 { 0 } else { record.status as i16 }",
        )],
    ),
    mutant(
        "beginning_sent_on",
        &[
            edit(
                "grammar.rs",
                "None if begins_packet(run) => Front::Beginning",
                "None if begins_packet(run) => Front::Packet(run.len())",
            ),
            edit("transmit.rs", ".expect(\"a packet\")", ".unwrap_or(0)"),
        ],
    ),
    mutant(
        "extra_read_as_data",
        &[edit("transmit.rs", "slots[1 + extras..].iter().map(data)", "slots[1..].iter().map(data)")],
    ),
    mutant("nineteen_data_slots", &[edit("grammar.rs", "DATA_LIMIT: usize = 18", "DATA_LIMIT: usize = 19")]),
    mutant("seventeen_data_slots", &[edit("grammar.rs", "DATA_LIMIT: usize = 18", "DATA_LIMIT: usize = 17")]),
    mutant("five_extras", &[edit("grammar.rs", "EXTRA_LIMIT: usize = 4", "EXTRA_LIMIT: usize = 5")]),
    mutant("three_extras", &[edit("grammar.rs", "EXTRA_LIMIT: usize = 4", "EXTRA_LIMIT: usize = 3")]),
    mutant(
        "extras_counted_as_data",
        &[edit("grammar.rs", "slots.len() - extras <= DATA_LIMIT", "slots.len() <= DATA_LIMIT")],
    ),
    mutant(
        "limit_on_the_sum_only",
        &[edit(
            "grammar.rs",
            "slots.len() - extras <= DATA_LIMIT && extras <= EXTRA_LIMIT",
            "slots.len() <= LIMIT && extras < slots.len()",
        )],
    ),
    mutant(
        "slots_owed_not_counted",
        &[edit(
            "grammar.rs",
            "ends.iter().any(|end| is_packet(&[slots, end].concat()))",
            "slots.len() < LIMIT && ends.iter().any(|end| extras_of(&[slots, end].concat()).is_some())",
        )],
    ),
    mutant(
        "extra_type_ignored",
        &[edit("grammar.rs", "extras.iter().all(|slot| extra(slot).kind == EXTRA_KIND)", "true")],
    ),
    mutant(
        "late_bit_3_ignored",
        &[edit("grammar.rs", "later.iter().all(|slot| !data(slot).extra_follows)", "true")],
    ),
    mutant(
        "packet_must_be_all_that_is_posted",
        &[edit("grammar.rs", "(1..=longest).find(", "Some(longest).filter(")],
    ),
    mutant("total_13_passes", &[edit("report.rs", "SMALLEST_FRAME: u64 = 14", "SMALLEST_FRAME: u64 = 13")]),
    mutant(
        "total_65535_refused",
        &[edit(
            "transmit.rs",
            "total < SMALLEST_FRAME {",
            "total < SMALLEST_FRAME || total >= LARGEST_FRAME {",
        )],
    ),
    mutant("reserved_cause_for_sizes", &[edit("transmit.rs", "found.push((3, 0))", "found.push((2, 0))")]),
    mutant("empty_first_part_refused", &[edit("transmit.rs", "(packet) > total", "(packet) >= total")]),
    mutant(
        "later_sizes_added_in_16_bits",
        &[edit("transmit.rs", "|slot| slot.size).sum()", "|slot| slot.size).sum::<u64>() % 65_536")],
    ),
    mutant(
        "part_may_not_reach_the_pages_end",
        &[edit("grants.rs", "offset + part <= self.end()", "offset + part <= self.end().min(4095)")],
    ),
    mutant(
        "grant_of_an_empty_part_untested",
        &[
            edit(
                "transmit.rs",
                "None => found.push((4, piece.place)),",
                "None if piece.part == 0 => {} None => found.push((4, piece.place)),",
            ),
            edit(
                "transmit.rs",
                "pieces(packet).into_iter()",
                "pieces(packet).into_iter().filter(|piece| piece.part > 0)",
            ),
        ],
    ),
    mutant("gso_before_the_slots", &[edit("transmit.rs", "found.push((6, ", "found.insert(0, (6, ")]),
    mutant(
        "first_extra_counts",
        &[
            edit(
                "transmit.rs",
                "if let Some(last) = packet.extras.last()",
                "if let Some(last) = packet.extras.first()",
            ),
            edit("transmit.rs", "let gso = packet.extras.last();", "let gso = packet.extras.first();"),
        ],
    ),
    mutant("gso_type_3_passes", &[edit("slots.rs", "(1..=2).contains", "(1..=3).contains")]),
    mutant("place_counts_data_slots_only", &[edit("transmit.rs", "1 + packet.extras.len()..;", "1..;")]),
    mutant(
        "reference_wraps_in_32_bits",
        &[edit("grants.rs", "let at = WORD_BYTES * gref;", "let at = WORD_BYTES * gref % 4_294_967_296;")],
    ),
    mutant(
        "page_wraps_in_32_bits",
        &[edit("grants.rs", "let page = word / 4;", "let page = word / 4 % 1_048_576;")],
    ),
    mutant("last_grant_word_ignored", &[edit("grants.rs", "at + WORD_BYTES <=", "at + WORD_BYTES <")]),
    mutant(
        "grant_words_of_four_bytes",
        &[
            edit("grants.rs", "WORD_BYTES * gref", "4 * gref"),
            edit("grants.rs", "at + WORD_BYTES <=", "at + 4 <="),
            edit("grants.rs", "(number(bytes, 4, 2) as i64, number(bytes, 6, 2) as i64)", "(0, 4096)"),
        ],
    ),
    mutant(
        "grant_word_without_its_range_taken",
        &[
            edit("grants.rs", "at + WORD_BYTES <=", "at + 4 <="),
            edit(
                "grants.rs",
                "number(bytes, 4, 2)",
                "number(bytes.get(4..8).unwrap_or(&[0, 0, 0, 16]), 0, 2)",
            ),
            edit(
                "grants.rs",
                "number(bytes, 6, 2)",
                "number(bytes.get(4..8).unwrap_or(&[0, 0, 0, 16]), 2, 2)",
            ),
        ],
    ),
    mutant(
        "grant_word_without_its_last_byte_taken",
        &[
            edit("grants.rs", "at + WORD_BYTES <=", "at + 7 <="),
            edit("grants.rs", "number(bytes, 6, 2)", "number(bytes.get(6..8).unwrap_or(&[0, 16]), 0, 2)"),
        ],
    ),
    mutant(
        "range_length_before_start",
        &[edit("grants.rs", "let (start, length) =", "let (length, start) =")],
    ),
    mutant(
        "last_page_of_the_window_ignored",
        &[edit("grants.rs", "PAGE_BYTES <= window.len()", "PAGE_BYTES < window.len()")],
    ),
    mutant("grant_bit_ignored", &[edit("grants.rs", "granted: bit(word, 0)", "granted: word > 0")]),
    mutant(
        "transmit_wants_a_writable_page",
        &[edit(
            "transmit.rs",
            "piece.gref, Access::Read) {",
            "piece.gref, Access::Read).filter(|grant| grant.writable) {",
        )],
    ),
    mutant(
        "receive_writes_a_read_only_page",
        &[edit("grants.rs", "self.writable && self.range", "self.range")],
    ),
    mutant(
        "range_start_ignored",
        &[edit("grants.rs", "self.start <= offset && offset + part", "offset + part")],
    ),
    mutant(
        "range_length_ignored",
        &[edit("grants.rs", "offset + part <= self.end()", "offset + part <= PAGE_BYTES as i64")],
    ),
    mutant(
        "offset_counts_from_the_ranges_start",
        &[
            edit(
                "grants.rs",
                "self.start <= offset && offset + part <= self.end()",
                "offset + part <= self.length",
            ),
            edit("transmit.rs", "piece.offset as usize;", "(grant.range.start + piece.offset) as usize;"),
        ],
    ),
    mutant(
        "range_end_taken_as_its_length",
        &[edit("grants.rs", "offset + part <= self.end()", "offset + part <= self.length")],
    ),
    mutant(
        "part_may_not_reach_the_ranges_end",
        &[edit("grants.rs", "offset + part <= self.end()", "offset + part < self.end()")],
    ),
    mutant(
        "part_may_not_begin_at_the_ranges_start",
        &[edit("grants.rs", "self.start <= offset &&", "(self.start < offset || offset == 0) &&")],
    ),
    mutant(
        "offset_of_an_empty_part_untested",
        &[
            edit("grants.rs", "self.start <= offset &&", "part == 0 || self.start <= offset &&"),
            edit(
                "transmit.rs",
                "pieces(packet).into_iter()",
                "pieces(packet).into_iter().filter(|piece| piece.part > 0)",
            ),
        ],
    ),
    mutant(
        "empty_part_before_the_range_taken",
        &[edit("grants.rs", "self.start <= offset &&", "(part == 0 || self.start <= offset) &&")],
    ),
    mutant(
        "empty_part_behind_the_range_taken",
        &[edit(
            "grants.rs",
            "offset + part <= self.end()",
            "(offset + part <= self.end() || part == 0 && offset <= PAGE_BYTES as i64)",
        )],
    ),
    mutant(
        "empty_part_at_the_ranges_end_refused",
        &[edit(
            "grants.rs",
            "offset + part <= self.end()",
            "offset + part <= self.end() && (offset < self.end() || offset == self.start)",
        )],
    ),
    mutant(
        "range_to_the_pages_end_refused",
        &[edit(
            "grants.rs",
            "self.range.end() <= PAGE_BYTES as i64",
            "(self.range.end() < PAGE_BYTES as i64 || self.range == WHOLE_PAGE)",
        )],
    ),
    mutant(
        "range_one_past_the_page_passes",
        &[edit("grants.rs", "self.range.end() <= PAGE_BYTES as i64", "self.range.end() <= 4097")],
    ),
    mutant(
        "range_added_in_16_bits",
        &[edit("grants.rs", "self.start + self.length", "(self.start + self.length) % 65_536")],
    ),
    mutant(
        "range_past_the_page_is_cause_5",
        &[
            edit("grants.rs", "self.range.end() <= PAGE_BYTES as i64", "true"),
            edit("grants.rs", "self.start <= offset &&", "self.end() <= 4096 && self.start <= offset &&"),
        ],
    ),
    mutant(
        "range_tested_before_the_grant",
        &[edit(
            "transmit.rs",
            "None => found.push((4, piece.place)),",
            "None if super::grants::grant(lent.grants, piece.gref)
                .is_some_and(|grant| !grant.range.holds(piece.offset, piece.part)) =>
            {
                found.push((5, piece.place))
            }
            None => found.push((4, piece.place)),",
        )],
    ),
    mutant(
        "range_of_0_bytes_refused",
        &[edit("grants.rs", "usable && in_page", "usable && in_page && self.range.length > 0")],
    ),
    mutant(
        "transmit_wants_the_whole_page",
        &[edit("grants.rs", "Access::Read => true", "Access::Read => self.range == WHOLE_PAGE")],
    ),
    mutant(
        "receive_range_may_begin_late",
        &[edit("grants.rs", "self.range == WHOLE_PAGE", "self.range.end() == WHOLE_PAGE.end()")],
    ),
    mutant(
        "receive_range_may_end_early",
        &[edit("grants.rs", "self.range == WHOLE_PAGE", "self.range.start == 0")],
    ),
    mutant(
        "receive_range_of_the_piece_is_enough",
        &[edit(
            "receive.rs",
            "requests.iter().map(grant)",
            "requests.iter().zip(lent.frame.chunks(PIECE_BYTES)).map(|(r, piece)| {
                let grant = fit_grant(lent.grants, lent.window, r.gref, Access::Read);
                grant.filter(|grant| grant.writable && grant.range.holds(0, piece.len() as i64))
            })",
        )],
    ),
    mutant(
        "receive_asks_for_the_ranges_length_only",
        &[
            edit("grants.rs", "in_page && enough", "(in_page || access == Access::Write) && enough"),
            edit("grants.rs", "self.range == WHOLE_PAGE", "self.range.length == WHOLE_PAGE.length"),
        ],
    ),
    mutant(
        "receive_range_may_be_longer_than_the_page",
        &[
            edit("grants.rs", "in_page && enough", "(in_page || access == Access::Write) && enough"),
            edit(
                "grants.rs",
                "self.range == WHOLE_PAGE",
                "self.range.start == 0 && self.range.length >= WHOLE_PAGE.length",
            ),
        ],
    ),
    mutant("no_room_before_spoiled", &[edit("transmit.rs", "cause.is_none() && (lent.frame", "(lent.frame")]),
    mutant(
        "spoiled_reports_the_total",
        &[edit(
            "transmit.rs",
            "cause, place, slots, notify, ..",
            "cause, place, slots, notify, total: packet.first.size as u32, ..",
        )],
    ),
    mutant(
        "extra_gets_the_status",
        &[edit("finish.rs", "transmit_reply(0, NULL)", "transmit_reply(0, record.status as i16)")],
    ),
    mutant(
        "rest_of_the_frame_buffer_cleared",
        &[edit(
            "transmit.rs",
            "let bytes = joined(packet, lent);",
            "let mut bytes = joined(packet, lent); bytes.resize(lent.frame.len(), 0);",
        )],
    ),
    mutant("event_for_the_last_slot_posted", &[edit("ring.rs", "plus(req_prod(page), 1)", "req_prod(page)")]),
    mutant("notify_one_early", &[edit("ring.rs", "minus(new, event) <", "minus(new, event) <=")]),
    mutant(
        "notify_by_plain_less_than",
        &[edit("ring.rs", "minus(new, event) < minus(new, old)", "old < event && event <= new")],
    ),
    mutant(
        "rsp_prod_not_moved",
        &[edit("ring.rs", "header_word(RSP_PROD, new)", "header_word(RSP_PROD, old)")],
    ),
    mutant(
        "replies_from_rsp_prod",
        &[edit(
            "ring.rs",
            "let new = plus(old, slots);",
            "let old = rsp_prod(page); let new = plus(old, slots);",
        )],
    ),
    mutant(
        "full_ring_refused",
        &[edit("transmit.rs", "unreplied > ring::RING_SLOTS", "unreplied >= ring::RING_SLOTS")],
    ),
    mutant(
        "mark_set_to_1",
        &[edit("transmit.rs", "Outcome::refused(queue, HALTED_ALREADY)", "halting(queue, HALTED_ALREADY)")],
    ),
    mutant(
        "overflow_does_not_halt",
        &[edit("receive.rs", "ReceiveQueue { halted: 1, ..queue }, OVERFLOW", "queue, OVERFLOW")],
    ),
    mutant(
        "halted_before_bad_length",
        &[edit("receive.rs", "if !(SMALLEST", "if queue.halted == 0 && !(SMALLEST")],
    ),
    mutant(
        "receive_needs_one_request_more",
        &[edit("receive.rs", ".div_ceil(PIECE_BYTES) as u64", " as u64 / PAGE_BYTES + 1")],
    ),
    mutant(
        "last_receive_reply_says_more",
        &[edit("receive.rs", "number < requests.len()", "number <= requests.len()")],
    ),
    mutant(
        "earlier_write_stands",
        &[edit("receive.rs", ".map(write));", ".map(write).collect::<Vec<_>>().into_iter().rev());")],
    ),
];
