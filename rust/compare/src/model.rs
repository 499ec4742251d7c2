//! Document 01's answers where the original panics, so that it cannot be asked: making a set that ends at the last
//! number of its type, and the acknack count after 2,147,483,647.

/// The answer that document 01 gives; none where this says nothing.
pub fn answer(line: &[u8], before: Option<&[u8]>) -> Option<String> {
    let words: Vec<&str> = std::str::from_utf8(line).ok()?.split(' ').collect();
    match words[..] {
        ["set.make", _, base, list] => made(base.parse().ok()?, list),
        ["px.ack", _] if before?.ends_with(b" 2147483647") => Some("ok 2147483647 -2147483648".to_string()),
        _ => None,
    }
}

/// A set made from a base and a strictly rising list that is not empty.
fn made(base: i128, list: &str) -> Option<String> {
    let list: Vec<i128> = list
        .split(',')
        .map(|number| number.parse().ok())
        .collect::<Option<_>>()?;
    let base = base.min(*list.first()?);
    if base < 1 {
        return Some(said(1, 0, &[0; 8]));
    }
    let last = *list.last()?;
    let last = if last - base >= 256 { base + 255 } else { last };
    let mut words = [0u32; 8];
    for number in list.iter().filter(|number| **number <= last) {
        let bit = (number - base) as usize;
        words[bit / 32] |= 1 << (31 - bit % 32);
    }
    Some(said(base, last - base + 1, &words))
}

fn said(base: i128, count: i128, words: &[u32; 8]) -> String {
    let words = words.map(|word| format!("{word:08x}")).join(",");
    format!("ok {base} {count} {words}")
}

#[cfg(test)]
mod tests {
    use protocol::answer;

    /// Where the original can be asked, the model says the same.
    #[test]
    fn agrees_with_the_original() {
        let mut oracle = original::Oracle::new();
        for subset in 1u32..512 {
            let list: Vec<String> = (0..9)
                .filter(|i| subset >> i & 1 == 1)
                .map(|i| (i * 37 - 40).to_string())
                .collect();
            for base in -3..9 {
                let line = format!("set.make seq {} {}", base * 20, list.join(","));
                let said = super::answer(line.as_bytes(), None);
                assert_eq!(said, Some(answer(&mut oracle, line.as_bytes())), "{line}");
            }
        }
    }
}
