//! Posts: the library's answer, in every placement, is the second program's, and the library takes back what was
//! posted.

use crate::bytes::put_u32;
use crate::case::{self, Call, Case, Second, State};
use crate::cases::PLACEMENTS;
use crate::crash::{self, Phase};
use crate::driver;
use crate::guarded::Placement;
use crate::library::Library;
use crate::post::{difference, Post, PostAnswer};
use crate::post_facts::PostFacts;
use crate::random::Random;
use crate::records::Records;
use reference::report::{BAD_PAGES, DONE};
use reference::ring::{slot_at, RING_SLOTS};
use reference::slots::TRANSMIT_WIDTH;

/// The most pages of a frame.
const MOST_PAGES: usize = 16;

/// Checks post `number` of a run with `seed`, and gives what it is about.
pub fn check(library: &mut Library, second: &Second, seed: u64, number: u64) -> Result<PostFacts, String> {
    let random = &Random::new(!seed.rotate_left(32), number);
    let post = driver::post(seed, number);
    let (answer, behind) = check_post(library, second, random, &post)?;
    Ok(PostFacts::new(post, answer.words, behind))
}

/// Checks frames of one to sixteen pages with lists that have one fault, in every place: two references to one page, and
/// each reason for an unfit reference. Gives the number of posts.
pub fn check_lists(library: &mut Library, second: &Second) -> Result<u64, String> {
    let mut checked = 0;
    for (name, post, is_used) in (1..=MOST_PAGES).flat_map(lists) {
        crash::note(Phase::List, checked);
        let random = &Random::new(checked, 0);
        let (answer, _) = check_post(library, second, random, &post)
            .map_err(|error| format!("list with {name}: {error}"))?;
        if answer.returned != if is_used { BAD_PAGES } else { DONE } {
            return Err(format!("list with {name}: answer {}\n{post}", answer.returned));
        }
        checked += 1;
    }
    Ok(checked)
}

/// Lists for a frame of so many pages, with their fault and whether it is among the references that the frame uses. Else
/// it is directly behind them.
fn lists(pages: usize) -> impl Iterator<Item = (String, Post, bool)> {
    let places = (1..=pages).flat_map(|j| (0..j).map(move |i| (i, j)));
    let pairs = places.flat_map(|(i, j)| [(i, j, true), (i, j, false)]).map(move |(i, j, by_one)| {
        let name = format!("one page in places {i} and {j} of {pages}, by one reference: {by_one}");
        (name, driver::pair(pages, i, j, by_one), j < pages)
    });
    let reasons = (0..=pages).flat_map(|place| (0..driver::REASONS).map(move |reason| (place, reason)));
    let unfit = reasons.map(move |(place, reason)| {
        let name = format!("an unfit reference in place {place} of {pages}, for reason {reason}");
        (name, driver::unfit(pages, place, reason), place < pages)
    });
    pairs.chain(unfit)
}

/// The answer that both give to a post, and the slots behind the packet when it was taken back, or how they differ.
fn check_post(
    library: &mut Library,
    second: &Second,
    random: &Random,
    post: &Post,
) -> Result<(PostAnswer, u32), String> {
    let expected = second.post_answer(post);
    for placement in PLACEMENTS {
        let found = library.post_answer(post, placement).map_err(|error| format!("{error}\n{post}"))?;
        if let Some(difference) = difference(&expected, &found) {
            return Err(format!("buffers at {placement:?}: {difference}\n{post}"));
        }
    }
    let behind = match expected.returned {
        DONE => check_taken(library, second, random, post, &expected)
            .map_err(|difference| format!("taken back: {difference}\n{post}"))?,
        _ => 0,
    };
    Ok((expected, behind))
}

/// Takes what a done post left at the packet's first slot, now and then with further slots posted behind it and packets
/// held before it, and gives the number of those slots. The frame and the gso are those that were posted.
fn check_taken(
    library: &mut Library,
    second: &Second,
    random: &Random,
    post: &Post,
    answer: &PostAnswer,
) -> Result<u32, String> {
    let slots = answer.words[3];
    let most = RING_SLOTS as usize - slots as usize;
    let behind = random.pick(&[0, 0, 1, most, random.between(0, most)]) as u32;
    let case = take_case(random, post, answer, behind);
    let found = library.answer(&case, random.pick(&[Placement::End, Placement::Begin, Placement::Odd]))?;
    let (size, kind) = if post.gso.asked == 0 { (0, 0) } else { (post.gso.size, post.gso.kind) };
    let length = post.frame.len();
    let expected = [DONE, 0, 0, slots, 0, length as u32, 0, 0, size.into(), kind.into(), post.first()];
    if found.words != expected {
        return Err(format!("report: expected {expected:?}, found {:?}", found.words));
    }
    if found.after.frame[..length] != post.frame {
        return Err("not the frame that was posted".to_string());
    }
    case::difference(&second.answer(&case), &found).map_or(Ok(behind), Err)
}

/// A take at the packet's first slot, with room for the frame and a free record.
fn take_case(random: &Random, post: &Post, answer: &PostAnswer, behind: u32) -> Case {
    let Post { page, grants, window, .. } = &answer.after;
    let mut page = page.clone();
    let next = answer.after.first();
    for n in 0..behind {
        let at = slot_at(TRANSMIT_WIDTH, next.wrapping_add(n).into());
        page[at..at + TRANSMIT_WIDTH].copy_from_slice(&random.bytes(TRANSMIT_WIDTH));
    }
    put_u32(&mut page, 0, next.wrapping_add(behind));
    let room = random.pick(&[post.frame.len(), post.frame.len() + 1, 65_535]);
    let (grants, window, frame) = (grants.clone(), window.clone(), vec![0xB7; room]);
    let most_held = RING_SLOTS as u32 - answer.words[3] - behind;
    let mut records = Records::new(random, post.first(), most_held as usize);
    records.make_room();
    let (consumed, replied, held) = (records.consumed, records.replied, records.words());
    Case {
        call: Call::Take,
        before: State { consumed, replied, halted: 0, page, grants, window, held, frame },
    }
}
