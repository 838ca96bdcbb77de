//! What several tests share.

/// Rows of `n` darts with links (i, l, r).
pub fn rows(n: usize, links: &[(usize, usize, usize)]) -> Vec<u32> {
    let mut rows = vec![0; 4 * n];
    for &(i, l, r) in links {
        rows[4 * l + i] = r as u32;
        rows[4 * r + if i == 1 { 0 } else { i }] = l as u32;
    }
    rows
}
