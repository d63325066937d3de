include!("../texts/notation.rs");

// What the driver wants of the private fields of ParseError.
pub fn oracle_error(text: &str, e: &ParseError) -> (String, usize, usize) {
    (
        format!("{:?}", e.why),
        (e.loc.as_ptr() as usize).wrapping_sub(text.as_ptr() as usize),
        e.loc.len(),
    )
}
