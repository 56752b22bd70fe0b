//! Every short text of some bytes.

/// The texts of up to so many bytes of an alphabet, the shorter ones first.
pub fn up_to(longest: usize, alphabet: &[u8]) -> Vec<Vec<u8>> {
    let mut texts = vec![vec![]];
    let mut shorter = 0..1;
    for _ in 0..longest {
        let longer: Vec<Vec<u8>> = texts[shorter].iter().flat_map(|text| with_each(text, alphabet)).collect();
        shorter = texts.len()..texts.len() + longer.len();
        texts.extend(longer);
    }
    texts
}

/// The text with each byte of the alphabet behind it.
fn with_each<'a>(text: &'a [u8], alphabet: &'a [u8]) -> impl Iterator<Item = Vec<u8>> + 'a {
    alphabet.iter().map(move |byte| [text, &[*byte]].concat())
}
