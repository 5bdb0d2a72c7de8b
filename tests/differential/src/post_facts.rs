//! What a post is about and how it was answered, read off the post itself and not off its making.

use crate::post::Post;
use reference::calls::Words;
use reference::grants::{fit_grant, grant, Access, Grant, Range, WHOLE_PAGE, WORD_BYTES};
use reference::report::{BAD_PAGES, DONE};
use reference::ring::{notify, PAGE_BYTES, REQ_EVENT, RING_SLOTS, RSP_EVENT};
use reference::words::{minus, number};

pub struct PostFacts {
    pub post: Post,
    pub words: Words,
    /// Slots behind the packet when it was taken back.
    pub behind: u32,
    /// Slots posted whose replies are not read, where the ring page has 4,096 bytes.
    pub in_flight: Option<u64>,
    /// For each reference that the frame uses, where its page begins, if it is fit for receive.
    pages: Vec<Option<u64>>,
}

impl PostFacts {
    pub fn new(post: Post, words: Words, behind: u32) -> PostFacts {
        let is_page = post.page.len() == PAGE_BYTES;
        let in_flight = is_page.then(|| minus(post.first().into(), post.replies_read.into()));
        let page = |&gref: &u32| {
            fit_grant(&post.grants, &post.window, gref.into(), Access::Write).map(|grant| grant.page_at)
        };
        let pages = post.references.iter().take(post.pages()).map(page).collect();
        PostFacts { post, words, behind, in_flight, pages }
    }

    pub fn answer(&self) -> u32 {
        self.words[0]
    }

    /// Whether the post is done, and its frame has so many bytes.
    pub fn done_of(&self, length: usize) -> bool {
        self.answer() == DONE && self.length() == length
    }

    pub fn length(&self) -> usize {
        self.post.frame.len()
    }

    pub fn asks_gso(&self) -> bool {
        self.post.gso.asked != 0
    }

    /// Whether gso is asked for with this size and type.
    pub fn gso_is(&self, size: u16, kind: u8) -> bool {
        self.asks_gso() && (self.post.gso.size, self.post.gso.kind) == (size, kind)
    }

    pub fn has_bad_page(&self) -> bool {
        self.in_flight.is_none()
    }

    pub fn has_bad_length(&self) -> bool {
        !(14..=65_535).contains(&self.length())
    }

    pub fn has_bad_gso(&self) -> bool {
        self.asks_gso() && (self.post.gso.size == 0 || ![1, 2].contains(&self.post.gso.kind))
    }

    pub fn has_bad_pages(&self) -> bool {
        self.missing() > 0 || self.pages.contains(&None) || !self.pairs().is_empty()
    }

    /// Slots that are free beyond those that the packet needs. Negative if they are too few.
    pub fn left(&self) -> Option<i64> {
        let free = RING_SLOTS.saturating_sub(self.in_flight?);
        Some(free as i64 - self.post.slots() as i64)
    }

    /// How many references the list is too short by.
    pub fn missing(&self) -> usize {
        self.post.pages() - self.pages.len()
    }

    /// The places of used references, fit ones, that name one page.
    fn pairs(&self) -> Vec<(usize, usize)> {
        let places = (0..self.pages.len()).flat_map(|j| (0..j).map(move |i| (i, j)));
        places.filter(|&(i, j)| self.pages[i].is_some() && self.pages[i] == self.pages[j]).collect()
    }

    /// The places of the two references that name one page, if that is all that is wrong with the pages.
    pub fn pair(&self) -> Option<(usize, usize)> {
        let only = self.answer() == BAD_PAGES && self.missing() == 0 && !self.pages.contains(&None);
        self.pairs().first().copied().filter(|_| only)
    }

    /// Whether the two that name one page are one reference, or are two.
    pub fn pair_by_one(&self, one: bool) -> bool {
        self.pair().is_some_and(|(i, j)| (self.post.references[i] == self.post.references[j]) == one)
    }

    /// The place of the reference that is not fit for receive, if that is all that is wrong with the pages.
    pub fn unfit_place(&self) -> Option<usize> {
        let unfit = self.pages.iter().filter(|page| page.is_none()).count();
        let only = self.answer() == BAD_PAGES && self.missing() == 0 && self.pairs().is_empty() && unfit == 1;
        self.pages.iter().position(Option::is_none).filter(|_| only)
    }

    /// The reference in that place.
    pub fn unfit(&self) -> Option<u64> {
        self.unfit_place().map(|place| self.post.references[place].into())
    }

    /// How many bytes the table has of its word, where it has not all.
    pub fn cut_word(&self) -> Option<u64> {
        let bytes = (self.post.grants.len() as u64).saturating_sub(WORD_BYTES * self.unfit()?);
        (bytes < WORD_BYTES).then_some(bytes)
    }

    fn unfit_grant(&self) -> Option<Grant> {
        grant(&self.post.grants, self.unfit()?)
    }

    /// Whether its grant is unfit only for what this change to it mends.
    pub fn unfit_but_for(&self, mend: fn(Grant) -> Grant) -> bool {
        self.unfit_grant().is_some_and(|grant| mend(grant).is_fit(&self.post.window, Access::Write))
    }

    /// Where its page begins, if nothing else is wrong with it and it is outside the window.
    pub fn outside(&self) -> Option<u64> {
        let page_at = self.unfit_grant()?.page_at;
        self.unfit_but_for(|grant| Grant { page_at: 0, ..grant }).then_some(page_at)
    }

    /// Its range, if that is all that makes it unfit.
    pub fn unfit_range(&self) -> Option<Range> {
        let range = self.unfit_grant()?.range;
        self.unfit_but_for(|grant| Grant { range: WHOLE_PAGE, ..grant }).then_some(range)
    }

    /// The bytes of the frame that would go to its page.
    pub fn unfit_piece(&self) -> usize {
        self.unfit_place().map_or(0, |place| (self.length() - 4096 * place).min(4096))
    }

    /// The references of a post that is done.
    pub fn used(&self) -> &[u32] {
        let used = if self.answer() == DONE { self.pages.len() } else { 0 };
        &self.post.references[..used]
    }

    /// Whether the post is done, and the page at these bytes of the window is one of its pages.
    pub fn uses_page_at(&self, at: u64) -> bool {
        self.answer() == DONE && self.pages.contains(&Some(at))
    }

    /// The reference behind the last that is used, if the post is done.
    fn next_reference(&self) -> Option<u32> {
        self.post.references.get(self.pages.len()).copied().filter(|_| self.answer() == DONE)
    }

    /// Whether the post is done, and the reference behind the last used one is not fit.
    pub fn unfit_behind(&self) -> bool {
        let Post { grants, window, .. } = &self.post;
        self.next_reference()
            .is_some_and(|gref| fit_grant(grants, window, gref.into(), Access::Write).is_none())
    }

    /// Whether the post is done, and the reference behind the last used one names a used page.
    pub fn used_page_behind(&self) -> bool {
        let page = |gref: u32| grant(&self.post.grants, gref.into()).map(|grant| grant.page_at);
        let fit = !self.unfit_behind();
        fit && self.next_reference().is_some_and(|gref| self.pages.contains(&page(gref)))
    }

    /// Whether the post is done, and req_event was so far past the first slot.
    pub fn event_at(&self, distance: u32) -> bool {
        let event = self.post.first().wrapping_add(distance);
        self.answer() == DONE && number(&self.post.page, REQ_EVENT, 4) == event.into()
    }

    /// Whether the post is done, and rsp_event would give another notify.
    pub fn rsp_event_differs(&self) -> bool {
        let (old, new) = (self.post.first().into(), self.new_req_prod().into());
        let asks = |at| notify(&self.post.page, at, old, new);
        self.answer() == DONE && asks(REQ_EVENT) != asks(RSP_EVENT)
    }

    /// req_prod behind the slots posted.
    pub fn new_req_prod(&self) -> u32 {
        self.post.first().wrapping_add(self.words[3])
    }

    /// Whether the post is done, and a slot of it but the first is the first after a wrap at so many slots.
    pub fn wraps_at(&self, slots: u64) -> bool {
        let first = u64::from(self.post.first()) % slots;
        self.answer() == DONE && first + u64::from(self.words[3]) > slots
    }
}
