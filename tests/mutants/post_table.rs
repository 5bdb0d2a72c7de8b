//! Wrong variants of the second program's post: edits of its source, each of which must be found exactly once.

use super::table::{edit, mutant, Mutant};

pub const POST_MUTANTS: &[Mutant] = &[
    mutant(
        "post_first_size_is_its_own_part",
        &[edit("post.rs", "if is_first { frame.len() } else { piece.len() } as u64", "piece.len() as u64")],
    ),
    mutant(
        "post_ids_by_place_in_the_packet",
        &[edit("post.rs", "plus(first, place as u64) % 65_536", "place as u64")],
    ),
    mutant(
        "post_ids_by_the_first_slot",
        &[edit("post.rs", "plus(first, place as u64) % 65_536", "first % 65_536")],
    ),
    mutant(
        "post_ids_pass_over_the_extra",
        &[edit("post.rs", "plus(first, place as", "plus(first, number as")],
    ),
    mutant("post_ids_by_place_on_the_ring", &[edit("post.rs", "% 65_536", "% 256")]),
    mutant("post_bit_2_on_the_last", &[edit("post.rs", "number + 1 < pages", "number < pages")]),
    mutant(
        "post_bit_2_on_the_first_only",
        &[edit("post.rs", "number + 1 < pages", "is_first && number + 1 < pages")],
    ),
    mutant(
        "post_bit_3_left_out",
        &[edit("post.rs", "extra_follows: is_first && extras > 0", "extra_follows: false")],
    ),
    mutant(
        "post_bit_3_without_gso",
        &[edit("post.rs", "extra_follows: is_first && extras > 0", "extra_follows: is_first")],
    ),
    mutant(
        "post_bit_3_on_all",
        &[edit("post.rs", "extra_follows: is_first && extras > 0", "extra_follows: extras > 0")],
    ),
    mutant(
        "post_checksum_blank_with_gso",
        &[edit("post.rs", "checksum_blank: false", "checksum_blank: is_first && extras > 0")],
    ),
    mutant("post_req_prod_not_moved", &[edit("post.rs", "(ring::REQ_PROD, new)", "(ring::REQ_PROD, old)")]),
    mutant(
        "post_req_prod_one_too_far",
        &[edit("post.rs", "(ring::REQ_PROD, new)", "(ring::REQ_PROD, plus(new, 1))")],
    ),
    mutant(
        "post_req_prod_in_16_bits",
        &[edit("post.rs", "(ring::REQ_PROD, new)", "(ring::REQ_PROD, new % 65_536)")],
    ),
    mutant(
        "post_sets_req_event",
        &[edit(
            "post.rs",
            "chain([ring::header_word(ring::REQ_PROD, new)])",
            "chain([ring::header_word(ring::REQ_PROD, new), ring::event_for_next(page)])",
        )],
    ),
    mutant("post_slots_from_rsp_prod", &[edit("post.rs", "plus(old, n))", "plus(ring::rsp_prod(page), n))")]),
    mutant(
        "post_zeros_at_a_slots_end_not_written",
        &[edit(
            "post.rs",
            "bytes.to_vec())",
            "bytes[..bytes.iter().rposition(|&byte| byte != 0).map_or(0, |last| last + 1)].to_vec())",
        )],
    ),
    mutant(
        "post_pages_written_before_12",
        &[edit(
            "post.rs",
            "return refused(BAD_PAGES);",
            "let fit = |&gref: &u32| fit_grant(lent.grants, lent.window, gref.into(), Access::Write);
            let pages: Vec<u64> = order.references.iter().map_while(fit).map(|grant| grant.page_at).collect();
            return Posted { changes: writes(lent.frame, &pages), ..refused(BAD_PAGES) };",
        )],
    ),
    mutant(
        "post_pages_written_before_11",
        &[edit(
            "post.rs",
            "return refused(NO_SLOTS);",
            "return Posted { changes: writes(lent.frame, &pages), ..refused(NO_SLOTS) };",
        )],
    ),
    mutant(
        "post_slots_written_before_11",
        &[edit(
            "post.rs",
            "return refused(NO_SLOTS);",
            "let mut changes = publish(lent.page, &slots).changes; changes.pop();
            return Posted { changes, ..refused(NO_SLOTS) };",
        )],
    ),
    mutant("post_pages_not_compared", &[edit("post.rs", "pages[..number].contains(page)", "false")]),
    mutant(
        "post_last_pair_not_compared",
        &[edit(
            "post.rs",
            "pages[..number]",
            "pages[..number - usize::from(number > 0 && number + 1 == pages.len())]",
        )],
    ),
    mutant(
        "post_last_page_not_compared",
        &[edit(
            "post.rs",
            "pages[..number].contains",
            "number + 1 < pages.len() && pages[..number].contains",
        )],
    ),
    mutant(
        "post_neighbours_compared_only",
        &[edit("post.rs", "pages[..number]", "pages[number.saturating_sub(1)..number]")],
    ),
    mutant("post_first_page_compared_only", &[edit("post.rs", "pages[..number]", "pages[..number.min(1)]")]),
    mutant(
        "post_first_page_not_compared",
        &[edit("post.rs", "pages[..number]", "pages[number.min(1)..number]")],
    ),
    mutant(
        "post_one_pair_of_sixteen_not_compared",
        &[edit(
            "post.rs",
            "pages[..number].contains(page)",
            "(0..number).any(|i| pages[i] == *page && (pages.len(), i, number) != (16, 7, 11))",
        )],
    ),
    mutant(
        "post_references_compared",
        &[edit("post.rs", "pages[..number].contains(page)", "used[..number].contains(&used[number])")],
    ),
    mutant(
        "post_one_reference_may_come_twice",
        &[edit(
            "post.rs",
            "pages[..number].contains(page)",
            "(0..number).any(|i| pages[i] == *page && used[i] != used[number])",
        )],
    ),
    mutant(
        "post_all_references_tested",
        &[edit(
            "post.rs",
            "references.get(..lent.frame.len().div_ceil(PIECE_BYTES))?",
            "Some(references).filter(|all| all.len() >= lent.frame.len().div_ceil(PIECE_BYTES))?",
        )],
    ),
    mutant(
        "post_one_reference_more_tested",
        &[edit(
            "post.rs",
            "references.get(..lent.frame.len().div_ceil(PIECE_BYTES))?",
            "references.get(..lent.frame.len().div_ceil(PIECE_BYTES))
                .map(|used| references.get(..used.len() + 1).unwrap_or(used))?",
        )],
    ),
    mutant(
        "post_one_reference_more_wanted",
        &[edit(
            "post.rs",
            "references.get(..lent.frame.len().div_ceil(PIECE_BYTES))?",
            "references.get(..lent.frame.len() / PIECE_BYTES + 1)?",
        )],
    ),
    mutant(
        "post_read_only_page_taken_in_one_place",
        &[edit(
            "post.rs",
            "used.iter().map(|&gref| fit_grant(lent.grants, lent.window, gref.into(), Access::Write))",
            "used.iter().enumerate().map(|(place, &gref)| {
                let grant = fit_grant(lent.grants, lent.window, gref.into(), Access::Read)?;
                let taken = grant.writable || (used.len(), place) == (16, 9);
                Some(grant).filter(|grant| taken && grant.range == super::grants::WHOLE_PAGE)
            })",
        )],
    ),
    mutant(
        "post_short_list_taken",
        &[edit(
            "post.rs",
            "references.get(..lent.frame.len().div_ceil(PIECE_BYTES))?",
            "&references[..lent.frame.len().div_ceil(PIECE_BYTES).min(references.len())]",
        )],
    ),
    mutant(
        "post_fit_for_transmit_is_enough",
        &[edit("post.rs", "gref.into(), Access::Write)", "gref.into(), Access::Read)")],
    ),
    mutant(
        "post_read_only_page_taken",
        &[edit(
            "post.rs",
            "gref.into(), Access::Write)",
            "gref.into(), Access::Read).filter(|grant| grant.range == super::grants::WHOLE_PAGE)",
        )],
    ),
    mutant(
        "post_part_of_a_page_taken",
        &[edit(
            "post.rs",
            "gref.into(), Access::Write)",
            "gref.into(), Access::Read).filter(|grant| grant.writable)",
        )],
    ),
    mutant(
        "post_range_of_the_piece_is_enough",
        &[edit(
            "post.rs",
            "used.iter().map(|&gref| fit_grant(lent.grants, lent.window, gref.into(), Access::Write))",
            "used.iter().zip(lent.frame.chunks(PIECE_BYTES)).map(|(&gref, piece)| {
                let grant = fit_grant(lent.grants, lent.window, gref.into(), Access::Read);
                grant.filter(|grant| grant.writable && grant.range.holds(0, piece.len() as i64))
            })",
        )],
    ),
    mutant(
        "post_range_past_the_page_taken",
        &[edit(
            "post.rs",
            "fit_grant(lent.grants, lent.window, gref.into(), Access::Write)",
            "{
                let mut grant = super::grants::grant(lent.grants, gref.into())?;
                if grant.range.start == 0 && grant.range.length > 4096 {
                    grant.range.length = 4096;
                }
                Some(grant).filter(|grant| grant.is_fit(lent.window, Access::Write))
            }",
        )],
    ),
    mutant(
        "post_granted_bit_not_tested",
        &[edit(
            "post.rs",
            "fit_grant(lent.grants, lent.window, gref.into(), Access::Write)",
            "{
                let mut grant = super::grants::grant(lent.grants, gref.into())?;
                grant.granted = true;
                Some(grant).filter(|grant| grant.is_fit(lent.window, Access::Write))
            }",
        )],
    ),
    mutant(
        "post_last_page_of_the_window_ignored",
        &[edit(
            "post.rs",
            "gref.into(), Access::Write)",
            "gref.into(), Access::Write)
                .filter(|grant| grant.page_at + PAGE_BYTES < lent.window.len() as u64)",
        )],
    ),
    mutant(
        "post_reference_wraps_in_29_bits",
        &[edit("post.rs", "gref.into(), Access::Write)", "u64::from(gref) % (1 << 29), Access::Write)")],
    ),
    mutant(
        "post_one_slot_too_many_free",
        &[edit("post.rs", "ring::RING_SLOTS - in_flight", "ring::RING_SLOTS + 1 - in_flight")],
    ),
    mutant("post_one_slot_stays_free", &[edit("post.rs", "slots.len() as u64 >", "slots.len() as u64 >=")]),
    mutant(
        "post_extra_needs_no_free_slot",
        &[edit("post.rs", "slots.len() as u64 >", "pages.len() as u64 >")],
    ),
    mutant(
        "post_extra_needs_a_free_slot_always",
        &[edit("post.rs", "slots.len() as u64 >", "pages.len() as u64 + 1 >")],
    ),
    mutant(
        "post_difference_past_256_not_tested",
        &[
            edit("post.rs", "in_flight > ring::RING_SLOTS", "false"),
            edit("post.rs", "ring::RING_SLOTS - in_flight", "minus(ring::RING_SLOTS, in_flight)"),
        ],
    ),
    mutant(
        "post_difference_in_8_bits",
        &[edit("post.rs", "(page), replies_read);", "(page), replies_read) % 256;")],
    ),
    mutant(
        "post_difference_by_plain_minus",
        &[edit(
            "post.rs",
            "minus(ring::req_prod(page), replies_read)",
            "ring::req_prod(page).saturating_sub(replies_read)",
        )],
    ),
    mutant(
        "post_replies_read_by_rsp_prod",
        &[edit(
            "post.rs",
            "(ring::req_prod(page), replies_read)",
            "(ring::req_prod(page), ring::rsp_prod(page))",
        )],
    ),
    mutant("post_absent_gso_taken_as_given", &[edit("calls.rs", "(asked != 0).then", "true.then")]),
    mutant(
        "post_absent_gso_refused_for_0",
        &[edit("calls.rs", "(asked != 0).then", "(asked != 0 || size == 0 && kind == 0).then")],
    ),
    mutant(
        "post_gso_of_0_taken_as_absent",
        &[edit("calls.rs", "(asked != 0).then", "(asked != 0 && size != 0).then")],
    ),
    mutant("post_gso_asked_for_by_1_only", &[edit("calls.rs", "(asked != 0).then", "(asked == 1).then")]),
    mutant(
        "post_gso_asked_for_in_8_bits",
        &[edit("calls.rs", "(asked != 0).then", "(asked % 256 != 0).then")],
    ),
    mutant(
        "post_gso_type_3_passes",
        &[edit("post.rs", "(gso.size, gso.kind))", "(gso.size, gso.kind.min(2)))")],
    ),
    mutant(
        "post_gso_type_0_passes",
        &[edit("post.rs", "(gso.size, gso.kind))", "(gso.size, gso.kind.max(1)))")],
    ),
    mutant(
        "post_gso_size_0_passes",
        &[edit("post.rs", "(gso.size, gso.kind))", "(gso.size.max(1), gso.kind))")],
    ),
    mutant(
        "post_9_before_1",
        &[edit(
            "post.rs",
            "return refused(BAD_PAGE);",
            "return refused(if (14..=65_535).contains(&lent.frame.len()) { BAD_PAGE } else { BAD_LENGTH });",
        )],
    ),
    mutant(
        "post_13_before_9",
        &[edit(
            "post.rs",
            "return refused(BAD_LENGTH);",
            "let passes = order.gso.map_or(true, |gso| super::slots::gso_passes(gso.size, gso.kind));
            return refused(if passes { BAD_LENGTH } else { BAD_GSO });",
        )],
    ),
    mutant(
        "post_12_before_13",
        &[edit(
            "post.rs",
            "return refused(BAD_GSO);",
            "return refused(if pages(order.references, lent).is_some() { BAD_GSO } else { BAD_PAGES });",
        )],
    ),
    mutant(
        "post_11_before_12",
        &[edit(
            "post.rs",
            "return refused(BAD_PAGES);",
            "let slots = lent.frame.len().div_ceil(PIECE_BYTES) + usize::from(order.gso.is_some());
            let enough = slots as u64 <= free_slots(lent.page, order.replies_read);
            return refused(if enough { BAD_PAGES } else { NO_SLOTS });",
        )],
    ),
    mutant("post_65535_refused", &[edit("post.rs", "..=LARGEST_FRAME)", "..LARGEST_FRAME)")]),
    mutant("post_65536_passes", &[edit("post.rs", "..=LARGEST_FRAME)", "..=65_536)")]),
    mutant("post_13_passes", &[edit("post.rs", "(SMALLEST_FRAME..=", "(13..=")]),
    mutant(
        "post_notify_by_rsp_event",
        &[edit("post.rs", "page, ring::REQ_EVENT,", "page, ring::RSP_EVENT,")],
    ),
    mutant(
        "post_notify_one_late",
        &[edit("post.rs", "ring::REQ_EVENT, old, new)", "ring::REQ_EVENT, plus(old, 1), new)")],
    ),
    mutant(
        "post_notify_one_early",
        &[edit("post.rs", "ring::REQ_EVENT, old, new)", "ring::REQ_EVENT, minus(old, 1), new)")],
    ),
    mutant(
        "post_notify_not_for_the_last",
        &[edit("post.rs", "ring::REQ_EVENT, old, new)", "ring::REQ_EVENT, old, minus(new, 1))")],
    ),
    mutant(
        "post_rest_of_the_last_page_cleared",
        &[edit(
            "post.rs",
            "let bytes = piece.to_vec();",
            "let mut bytes = piece.to_vec(); bytes.resize(PIECE_BYTES, 0);",
        )],
    ),
    mutant(
        "post_pages_in_the_windows_order",
        &[edit(
            "post.rs",
            "posted.changes.extend(",
            "let pages: Vec<u64> = std::collections::BTreeSet::from_iter(pages).into_iter().collect();
            posted.changes.extend(",
        )],
    ),
    mutant("post_extra_behind_the_data_slots", &[edit("post.rs", "slots.insert(1, ", "slots.push(")]),
    mutant(
        "post_extra_promises_another",
        &[edit("post.rs", "another_follows: false", "another_follows: true")],
    ),
    mutant(
        "post_reports_the_total",
        &[edit(
            "post.rs",
            "posted.changes.extend(",
            "posted.report.total = lent.frame.len() as u32; posted.changes.extend(",
        )],
    ),
    mutant(
        "post_reports_the_gso",
        &[edit(
            "post.rs",
            "posted.changes.extend(",
            "posted.report.gso_size = order.gso.map_or(0, |gso| gso.size as u32); posted.changes.extend(",
        )],
    ),
    mutant(
        "post_12_reports_a_place",
        &[edit(
            "post.rs",
            "return refused(BAD_PAGES);",
            "let fit = |&gref: &u32| fit_grant(lent.grants, lent.window, gref.into(), Access::Write);
            let place = order.references.iter().map_while(fit).count() as u32;
            return Posted { report: Report { place, ..refused(BAD_PAGES).report }, ..refused(BAD_PAGES) };",
        )],
    ),
];
