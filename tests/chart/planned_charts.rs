//! Charts by plan, not by chance: each family goes through every case at one boundary of document 01.

use common::plain_chart::WORDS;
use common::random_charts::SPELLINGS;
use common::texts;

type Charts = Box<dyn Iterator<Item = Vec<u8>>>;

/// All families, one after the other.
pub fn all() -> impl Iterator<Item = Vec<u8>> {
    let families: [fn() -> Charts; 8] =
        [short_texts, line_counts, operands, entry_numbers, lengths, line_lengths, changed_bytes, cut_texts];
    families.into_iter().flat_map(|family| family())
}

/// Every text of 0, 1 and 2 bytes.
fn short_texts() -> Charts {
    let bytes = || 0..=u8::MAX;
    let pairs = bytes().flat_map(move |first| bytes().map(move |second| vec![first, second]));
    Box::new(std::iter::once(vec![]).chain(bytes().map(|byte| vec![byte])).chain(pairs))
}

/// 0 to 40 sound lines, and after them nothing, a malformed line, an empty one or one without its byte 10.
fn line_counts() -> Charts {
    let last_lines = ["", "x\n", "\n", "x", "0\tevent\t256\n", "99\tevent\t1\n"];
    Box::new((0..=40).flat_map(move |count| last_lines.map(|last| [events(count), last.as_bytes().to_vec()].concat())))
}

/// Every operator word as entry 0 and as entry 2, with every pair of spellings as operands, and with an operand more or
/// less.
fn operands() -> Charts {
    let cases = [0, 2].into_iter().flat_map(|index| WORDS.map(|word| (index, word)));
    Box::new(cases.flat_map(|(index, word)| {
        let one = SPELLINGS.iter().map(move |a| format!("{word}\t{a}"));
        let two = SPELLINGS.iter().flat_map(move |a| SPELLINGS.map(|b| format!("{word}\t{a}\t{b}")));
        let odd = [word.to_string(), format!("{word}\t"), format!("{word}\t0\t0\t0"), format!("{word}\t0\t0\t")];
        let rest = one.chain(two).chain(odd);
        rest.map(move |rest| [events(index), format!("{index}\t{rest}\n").into_bytes()].concat())
    }))
}

/// Every spelling as the number of each entry, in a line that is sound otherwise and in one that is not.
fn entry_numbers() -> Charts {
    Box::new((0..32).flat_map(|index| {
        SPELLINGS.iter().flat_map(move |number| {
            let rests = [
                "event\t1\n",
                "event\t256\n",
                "lasts\t99\t0.5\n",
                "lasts\t99\t200000000.1\n",
                "event\n",
                "after\t0\n",
                "after\t99\t5\n",
                "after\t0\t200000000.1\n",
                "cut\t0\n",
                "cut\t99\t0\n",
                "change\t0\t99\n",
                "change\t0\t0\n",
            ];
            rests.map(|rest| [events(index), format!("{number}\t{rest}").into_bytes()].concat())
        })
    }))
}

/// Every text of up to five of these bytes as a length, with each operator that has one, and as an operand.
fn lengths() -> Charts {
    let words = ["lasts", "atmost", "atleast", "after", "seq"];
    let chart = |word: &str, text: &[u8]| [format!("0\tevent\t1\n1\t{word}\t0\t").as_bytes(), text, b"\n"].concat();
    Box::new(texts::up_to(5, b"015.-").into_iter().flat_map(move |text| words.map(|word| chart(word, &text))))
}

/// Lines of 0 to 129 bytes filled with one byte, after 0, 1, 31 and 32 sound lines, with a byte 10 and without. The
/// longest line allowed has 63 bytes and byte 10.
fn line_lengths() -> Charts {
    let fillers = [b'0', b'1', b' ', b'\t', b'x', 0, 0xff];
    Box::new((0..130).flat_map(move |length| {
        fillers.into_iter().flat_map(move |filler| {
            [0, 1, 31, 32].into_iter().flat_map(move |before| {
                let unended = [events(before), vec![filler; length]].concat();
                [[unended.clone(), b"\n".to_vec()].concat(), unended]
            })
        })
    }))
}

/// A chart of every kind of operator with each byte in turn replaced by every other.
fn changed_bytes() -> Charts {
    let chart = b"0\tevent\t255\n1\tseq\t0\t0\n2\t-[]\t1\t0\n3\toverlaps\t2\t0\n4\tlasts\t3\t200000000\n\
        5\tafter\t4\t200000000.0\n6\tcut\t5\t0\n7\tchange\t6\t6\n8\tatmost\t7\t0.5\n";
    Box::new((0..chart.len()).flat_map(move |place| {
        (0..=u8::MAX).map(move |byte| {
            let mut changed = chart.to_vec();
            changed[place] = byte;
            changed
        })
    }))
}

/// A chart of 34 lines cut after each of its bytes.
fn cut_texts() -> Charts {
    let chart = events(34);
    Box::new((0..=chart.len()).map(move |length| chart[..length].to_vec()))
}

/// A chart of events only.
fn events(count: usize) -> Vec<u8> {
    (0..count).map(|index| format!("{index}\tevent\t{index}\n")).collect::<String>().into_bytes()
}
