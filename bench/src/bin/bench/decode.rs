//! The plainest decoding of a good trace: no form and no range is judged.

/// File, size and cost of each request in turn.
pub fn requests(part: &[u8]) -> impl Iterator<Item = [u64; 3]> + '_ {
    let mut at = 0;
    std::iter::from_fn(move || {
        let more = at < part.len();
        more.then(|| [(); 3].map(|()| number(part, &mut at)))
    })
}

#[inline]
fn number(bytes: &[u8], at: &mut usize) -> u64 {
    let mut number = 0;
    let mut shift = 0;
    loop {
        let byte = bytes[*at];
        *at += 1;
        number |= u64::from(byte & 127) << shift;
        if byte < 128 {
            return number;
        }
        shift += 7;
    }
}
