//! The whole work of a peer: it checks all that a call is lent, and writes the
//! pages.

use super::Lent;
use crate::check::{check, check_bytes, check_length, refusal};
use tracker::{page_length, Sizes, MOST_CYCLES};

/// All that a call is lent is checked as the library checks it, and then `write`
/// writes the pages. The answer is as the library's.
#[inline]
pub fn checked(lent: Lent, write: impl FnOnce(Lent, Sizes)) -> u64 {
    match check_lent(&lent) {
        Err(refusal) => refusal,
        Ok(sizes) => {
            write(lent, sizes);
            0
        }
    }
}

/// The image's sizes, or a refusal 1 to 9, 13, 14 or 19. The record's bytes are
/// tried before its length.
fn check_lent(lent: &Lent) -> Result<Sizes, u64> {
    let sizes = check(lent.image)?;
    if lent.k > MOST_CYCLES {
        return Err(refusal(9, 0));
    }
    check_bytes(13, lent.record, |byte| byte <= 3)?;
    check_length(14, lent.record, lent.k * sizes.outputs)?;
    check_length(19, lent.page, page_length(lent.k, sizes.outputs))?;
    Ok(sizes)
}
