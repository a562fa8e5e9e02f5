//! A sample for the gate: a dozen functions, two of them over the limits and accepted in tools/complexity-baseline.tsv.

pub mod shapes;
pub mod units;

/// The largest of three.
pub fn largest(a: u32, b: u32, c: u32) -> u32 {
    if a >= b && a >= c {
        a
    } else if b >= c {
        b
    } else {
        c
    }
}

pub fn parse(text: &str) -> Option<(u32, u32)> {
    let (width, height) = text.split_once('x')?;
    Some((width.parse().ok()?, height.parse().ok()?))
}

#[cfg(test)]
mod tests {
    #[test]
    fn largest_of_three() {
        assert_eq!(super::largest(1, 3, 2), 3);
    }
}
