//! Why a wrong board is told by no kit: the page with the reasons.

use std::collections::BTreeMap;

/// Each wrong board of the page with its reason: a heading `## reason`, below it in a block
/// between lines of three backquotes a line for each board, as the program prints it.
pub fn read(page: &str) -> BTreeMap<String, String> {
    let mut reasons = BTreeMap::new();
    let (mut reason, mut block) = ("", false);
    for line in page.lines() {
        if line.starts_with("```") {
            block = !block;
        } else if block {
            reasons.insert(line.to_owned(), reason.to_owned());
        } else if let Some(heading) = line.strip_prefix("## ") {
            reason = heading;
        }
    }
    reasons
}
