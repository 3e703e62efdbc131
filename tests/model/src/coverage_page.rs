//! What the calls of paging hit.

use crate::coverage::{range, silence, silences, verdicts_of_6, Counts, Line};
use model::families::FAMILIES;
use model::growth::CHANGES;
use model::page::{Page, Request, CAUSES};
use model::reading::Item;

/// Counts one compared call. A cause counts where it alone refuses.
pub fn count(counts: &mut Counts, request: &Request, page: &Page) {
    counts.add(&format!("number {}", page.answer.number));
    counts.add(&format!("buffer {}", request.buffer.len()));
    if let [cause] = page.causes[..] {
        counts.add(&format!("{cause:?}"));
    }
    for item in &page.items {
        counts.add(&format!("kind {}", item.kind()));
        if let Item::Frame { frame, verdict } = item {
            if frame.kind == 6 {
                counts.add(&format!("verdict {verdict}"));
            }
        }
    }
    if page.answer.number == 0 {
        counts.add(&format!("direction {}", request.direction));
        counts.add(&format!("context after {}", page.answer.context));
    }
    if let Some(frame) = page.standing.iter().find(|frame| frame.kind == 5) {
        counts.add(&silence(
            frame,
            request.profile,
            request.context,
            request.direction,
        ));
    }
    if let Some(first) = page.items.first() {
        let context = request.context;
        counts.add(&format!("context {context}"));
        counts.add(&format!("kind {} in context {context}", first.kind()));
    }
    if page.answer.number == 0 && page.items.is_empty() {
        counts.add("at n");
    }
}

/// What is counted of harvests while the capture grows, beside what becomes of the last item.
pub const POLLED: &str = "polled harvest";
pub const LONG_POLLED: &str = "long polled harvest";
pub const NOTHING_KEPT: &str = "look that kept nothing";
pub const ONE_LESS: &str = "asked again with one less";
pub const GROWN: &str = "kept page asked again on the grown capture";

/// The coverage line, and what was never hit.
pub fn line(counts: &Counts) -> (String, Vec<String>) {
    let mut line = Line::new(counts);
    line.list("number 0..4", &range("number", 0, 4));
    line.each(&CAUSES.map(|cause| format!("{cause:?}")));
    line.list("kind 1..8", &range("kind", 1, 8));
    line.list("gaps", &range("kind", 0, 0));
    line.list("context 0..5", &range("context", 0, 5));
    line.list("context after 0..5", &range("context after", 0, 5));
    line.each(&["at n", "twin", "harvest", "full harvest"].map(String::from));
    line.each(&[POLLED, LONG_POLLED, NOTHING_KEPT, ONE_LESS, GROWN].map(String::from));
    line.each(&CHANGES.map(|change| format!("{change:?}")));
    line.list("direction 0..1", &range("direction", 0, 1));
    line.each(&FAMILIES.map(|family| format!("{family:?}")));
    let mut pairs = Vec::new();
    for context in 0..=5 {
        let kinds = (0..=8).filter(|kind| *kind != 8 || context >= 2);
        pairs.extend(kinds.map(|kind| format!("kind {kind} in context {context}")));
    }
    line.share("kind of the first item by context", &pairs);
    line.share("buffer lengths 0..80", &range("buffer", 0, 80));
    line.share("verdicts of kind 6", &verdicts_of_6());
    line.share("silence frames at the cursor", &silences());
    line.end("paging")
}
