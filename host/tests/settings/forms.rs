//! Blocks that hold the same settings in another form, as someone could have read the request, and that are malformed.
use cathar_host::stored::{Version, ROW, WORD};

/// What the words of a form are: where its bodies are said to begin, how far each is from the one before it, how long it
/// is said to be, and the number of the first part.
struct Form {
    first: u32,
    step: u32,
    length: u32,
    number: u32,
    parts: u32,
}

/// The block of a version in this form.
fn block(version: Version, form: &Form, settings: &[u32]) -> Vec<u32> {
    let mut words = vec![version.number(), form.parts];
    for place in 0..version.settings() as u32 {
        words.extend([form.number + place, form.first + form.step * place, form.length]);
    }
    words.extend(&settings[..version.settings()]);
    words
}

/// The words as bytes, lowest byte first.
fn bytes(words: &[u32]) -> Vec<u8> {
    words.iter().flat_map(|word| word.to_le_bytes()).collect()
}

/// The blocks of these settings in other forms.
pub fn each(version: Version, settings: &[u32]) -> Vec<Vec<u8>> {
    let parts = version.settings() as u32;
    let right = Form { first: version.table_end() as u32, step: 4, length: 4, number: 1, parts };
    let mut forms = vec![
        // Offsets that count from the table's end, from behind the version, from behind the count of parts, or in words.
        bytes(&block(version, &Form { first: 0, ..right }, settings)),
        bytes(&block(version, &Form { first: right.first - 4, ..right }, settings)),
        bytes(&block(version, &Form { first: right.first - 8, ..right }, settings)),
        bytes(&block(version, &Form { first: right.first / 4, step: 1, ..right }, settings)),
        // Lengths in words, in bits, or of the whole; lengths with a word before the body; parts that are numbered from
        // 0; parts that are counted with the version, or not at all.
        bytes(&block(version, &Form { length: 1, ..right }, settings)),
        bytes(&block(version, &Form { length: 32, ..right }, settings)),
        bytes(&block(version, &Form { length: 4 * parts, ..right }, settings)),
        bytes(&block(version, &Form { first: right.first - 4, length: 8, ..right }, settings)),
        bytes(&block(version, &Form { number: 0, ..right }, settings)),
        bytes(&block(version, &Form { parts: parts + 1, ..right }, settings)),
        bytes(&block(version, &Form { parts: 0, ..right }, settings)),
        // All bodies at one place; bodies that do not touch; and bodies in reverse, with their offsets.
        bytes(&block(version, &Form { step: 0, ..right }, settings)),
        apart(version, &right, settings),
        reversed(version, &right, settings),
    ];
    // The highest byte first, of all words and of all but the version; the count of parts before the version; no version.
    let words = block(version, &right, settings);
    forms.push(words.iter().flat_map(|word| word.to_be_bytes()).collect());
    forms.push(
        [&bytes(&words[..1])[..], &words[1..].iter().flat_map(|word| word.to_be_bytes()).collect::<Vec<u8>>()].concat(),
    );
    forms.push(bytes(&[&[words[1], words[0]], &words[2..]].concat()));
    forms.push(bytes(&words[1..]));
    forms
}

/// Bodies that have a word of 0 between each other, at their offsets.
fn apart(version: Version, right: &Form, settings: &[u32]) -> Vec<u8> {
    let words = block(version, &Form { step: 8, ..*right }, settings);
    let (table, bodies) = words.split_at(version.table_end() / WORD);
    bytes(&[table, &bodies.iter().flat_map(|word| [*word, 0]).collect::<Vec<u32>>()].concat())
}

/// The bodies in reverse, and offsets that say so.
fn reversed(version: Version, right: &Form, settings: &[u32]) -> Vec<u8> {
    let mut words = block(version, right, settings);
    let (parts, end) = (version.settings(), version.table_end());
    words[end / WORD..].reverse();
    for place in 0..parts {
        words[2 + ROW / WORD * place + 1] = (end + WORD * (parts - 1 - place)) as u32;
    }
    bytes(&words)
}
