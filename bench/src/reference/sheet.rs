//! Document 02, W-211: sheets of PSNs.
use super::plain::psn_answer;

/// Number and place: 23 for a count outside 1 to 64, then 6, 7 and 24, each at its lowest entry; a repetition's is the later one.
pub fn sheet(psns: &[u32]) -> (u32, usize) {
    if psns.is_empty() || psns.len() > 64 {
        return (23, 0);
    }
    for number in [6, 7] {
        if let Some(i) = psns.iter().position(|&p| psn_answer(p) == number) {
            return (number, i);
        }
    }
    for later in 1..psns.len() {
        if psns[..later].contains(&psns[later]) {
            return (24, later);
        }
    }
    (0, 0)
}
