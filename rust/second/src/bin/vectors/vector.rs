//! A test vector: the fields of its input and the numbers of its answer, and the three ways to print them.

use second::Profile;

pub enum Field {
    /// One byte.
    Byte(u8),
    /// Two bytes, low first.
    Word(usize),
    /// Four bytes, low first.
    Count(u32),
    /// Eight bytes, low first.
    Long(usize),
    /// A length as a word, then the bytes.
    Bytes(Vec<u8>),
}

pub struct Vector {
    pub fields: Vec<Field>,
    pub answer: Vec<usize>,
}

/// These vectors, each beginning with the byte of its operation, with the operations counted from `first` on.
pub fn counted_from(first: u8, mut vectors: Vec<Vector>) -> Vec<Vector> {
    for operation in vectors.iter_mut().filter_map(|vector| vector.fields.first_mut()) {
        if let Field::Byte(number) = operation {
            *number += first;
        }
    }
    vectors
}

/// The five numbers of a profile in document 01's order.
pub fn profile_fields(profile: &Profile) -> Vec<Field> {
    let Profile { n, r, b, limit, depth } = *profile;
    [n, r, b, limit, depth].map(Field::Word).into()
}

/// These numbers, then the bytes of the buffers.
pub fn answer(numbers: &[usize], buffers: &[&[u8]]) -> Vec<usize> {
    let bytes = buffers.iter().flat_map(|buffer| buffer.iter());
    numbers.iter().copied().chain(bytes.map(|&x| usize::from(x))).collect()
}

fn word(number: usize) -> [u8; 2] {
    u16::try_from(number).expect("a field fits in two bytes").to_le_bytes()
}

fn spaced(numbers: impl Iterator<Item = usize>) -> String {
    numbers.map(|x| x.to_string()).collect::<Vec<String>>().join(" ")
}

impl Vector {
    /// The input as a part of the byte stream.
    pub fn stream(&self) -> Vec<u8> {
        let bytes = |field: &Field| match field {
            Field::Byte(x) => vec![*x],
            Field::Word(x) => word(*x).into(),
            Field::Count(x) => x.to_le_bytes().into(),
            Field::Long(x) => (*x as u64).to_le_bytes().into(),
            Field::Bytes(x) => [&word(x.len())[..], x].concat(),
        };
        self.fields.iter().flat_map(bytes).collect()
    }

    /// The answer's line, without its end.
    pub fn answer_line(&self) -> String {
        spaced(self.answer.iter().copied())
    }

    /// Input and answer in one line, without its end.
    pub fn text_line(&self) -> String {
        let text = |field: &Field| match field {
            Field::Byte(x) => format!("{x} "),
            Field::Count(x) => format!("{x} "),
            Field::Word(x) | Field::Long(x) => format!("{x} "),
            Field::Bytes(x) if x.is_empty() => "| 0 | ".into(),
            Field::Bytes(x) => format!("| {} {} | ", x.len(), spaced(x.iter().map(|&y| usize::from(y)))),
        };
        let fields: String = self.fields.iter().map(text).collect();
        format!("{fields}= {}", self.answer_line())
    }
}
