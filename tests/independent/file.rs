//! The stored file in its two forms, written from documents 01 and 02: slow and direct.
use crate::model::{coin_bits, degree, irreducible, independent, is_codeword, positions, proof_length, short_word, LARGEST};
use crate::nearest::{differences, nearest};

/// The most bytes of a file that a program takes.
pub const FILE_LIMIT: usize = 40000;

/// Form 1 is document 01's, with the shift 0; form 2 has the shift, and one byte for a symbol where l is at most 8.
#[derive(Clone, Copy, Debug, PartialEq)]
pub enum Form {
    One,
    Two,
}

impl Form {
    pub fn other(self) -> Form {
        if self == Form::One { Form::Two } else { Form::One }
    }

    /// The marks of setting, word and proof.
    pub fn marks(self) -> [[u8; 2]; 3] {
        match self {
            Form::One => [[0x53, 0x45], [0x57, 0x4f], [0x50, 0x46]],
            Form::Two => [[0x53, 0x32], [0x57, 0x32], [0x50, 0x32]],
        }
    }

    /// The bytes of a symbol of word or proof: l is at most 8 where the modulus is below 2^9.
    pub fn width(self, m: u32) -> usize {
        if self == Form::Two && m < 512 { 1 } else { 2 }
    }

    /// Where the heads of the three records begin.
    pub fn heads(self, m: u32, k: usize) -> [usize; 3] {
        let word = 7 + 2 * k + if self == Form::Two { 2 } else { 0 };
        [0, word, word + 6 + (self.width(m) << k)]
    }

    /// The name of a group of tests.
    pub fn name(self, name: &str) -> String {
        if self == Form::One { name.to_string() } else { format!("{name}, form 2") }
    }
}

pub struct File {
    pub form: Form,
    pub modulus: u32,
    pub basis: Vec<u16>,
    pub shift: u16,
    pub word: Vec<u16>,
    pub proof: Vec<u16>,
    /// Where the symbols of the word and of the proof begin, and where the last record ends.
    pub places: [usize; 3],
}

/// Numbers in so many bytes each, lowest first.
pub fn packed(xs: &[u16], width: usize) -> Vec<u8> {
    xs.iter().flat_map(|x| x.to_le_bytes().into_iter().take(width)).collect()
}

fn unpacked(bytes: &[u8], width: usize) -> Vec<u16> {
    bytes.chunks(width).map(|c| number(c) as u16).collect()
}

fn number(bytes: &[u8]) -> u32 {
    bytes.iter().rev().fold(0, |s, x| s << 8 | *x as u32)
}

fn setting_record(form: Form, m: u32, basis: &[u16], shift: u16) -> Vec<u8> {
    let mut out = form.marks()[0].to_vec();
    out.extend(m.to_le_bytes());
    out.push(basis.len() as u8);
    out.extend(packed(basis, 2));
    if form == Form::Two {
        out.extend(shift.to_le_bytes());
    }
    out
}

/// Puts a record behind the bytes.
fn record(mut out: Vec<u8>, mark: [u8; 2], xs: &[u16], width: usize) -> Vec<u8> {
    out.reserve_exact(6 + width * xs.len());
    out.extend(mark);
    out.extend((xs.len() as u32).to_le_bytes());
    xs.iter().for_each(|x| out.extend(&x.to_le_bytes()[..width]));
    out
}

/// The bytes of a setting, a word and a proof. Form 1 does not write the shift.
pub fn bytes_of(form: Form, m: u32, basis: &[u16], shift: u16, word: &[u16], proof: &[u16]) -> Vec<u8> {
    let ([_, first, second], width) = (form.marks(), form.width(m));
    record(record(setting_record(form, m, basis, shift), first, word, width), second, proof, width)
}

/// The mark of the coefficients, which have two bytes each in both forms.
const COEFFICIENTS: [u8; 2] = [0x43, 0x4f];

/// The bytes of a setting and coefficients: what the writer's program takes.
pub fn message_of(form: Form, m: u32, basis: &[u16], shift: u16, p: &[u16]) -> Vec<u8> {
    record(setting_record(form, m, basis, shift), COEFFICIENTS, p, 2)
}

/// Takes n bytes from the front, or gives 11.
fn take<'a>(rest: &mut &'a [u8], n: usize) -> Result<&'a [u8], u32> {
    if rest.len() < n {
        return Err(11);
    }
    let (front, back) = rest.split_at(n);
    *rest = back;
    Ok(front)
}

fn refuse_if(bad: bool, number: u32) -> Result<(), u32> {
    if bad { Err(number) } else { Ok(()) }
}

struct Head {
    form: Form,
    modulus: u32,
    basis: Vec<u16>,
    shift: u16,
}

/// The setting record, whose first mark tells the form: what does not begin with the mark of form 2 is read as form 1.
fn read_setting(rest: &mut &[u8]) -> Result<Head, u32> {
    let form = if rest.starts_with(&Form::Two.marks()[0]) { Form::Two } else { Form::One };
    let head = take(rest, 7)?;
    refuse_if(head[..2] != form.marks()[0], 11)?;
    let (m, k) = (number(&head[2..6]), head[6] as usize);
    refuse_if(!(8..=131071).contains(&m), 1)?;
    refuse_if(!irreducible(m), 2)?;
    refuse_if(!(3..=LARGEST).contains(&k), 3)?;
    let basis = unpacked(take(rest, 2 * k)?, 2);
    let shift = if form == Form::Two { number(take(rest, 2)?) as u16 } else { 0 };
    refuse_if(basis.iter().any(|b| (*b as u32) >> degree(m) != 0), 4)?;
    refuse_if((shift as u32) >> degree(m) != 0, 4)?;
    refuse_if(!independent(&basis), 5)?;
    Ok(Head { form, modulus: m, basis, shift })
}

fn read_record(rest: &mut &[u8], mark: [u8; 2], count: usize, width: usize, l: u32) -> Result<Vec<u16>, u32> {
    let head = take(rest, 6)?;
    refuse_if(head[..2] != mark, 11)?;
    refuse_if(number(&head[2..]) as usize != count, 12)?;
    let xs = unpacked(take(rest, width * count)?, width);
    refuse_if(xs.iter().any(|x| (*x as u32) >> l != 0), 9)?;
    Ok(xs)
}

/// The three records at the front, or the number of the first check that refuses, front to back: 6 after 5 where the file of the setting
/// would exceed the limit.
pub fn read_within(bytes: &[u8], limit: usize) -> Result<File, u32> {
    let mut rest = bytes;
    let Head { form, modulus, basis, shift } = read_setting(&mut rest)?;
    let (k, l, width, [_, first, second]) = (basis.len(), degree(modulus), form.width(modulus), form.marks());
    refuse_if(file_length(form, modulus, k) > limit, 6)?;
    let word_at = bytes.len() - rest.len() + 6;
    let word = read_record(&mut rest, first, 1 << k, width, l)?;
    let proof_at = bytes.len() - rest.len() + 6;
    let proof = read_record(&mut rest, second, proof_length(k), width, l)?;
    Ok(File { form, modulus, basis, shift, word, proof, places: [word_at, proof_at, bytes.len() - rest.len()] })
}

/// The same of a file of any length.
pub fn read_prefix(bytes: &[u8]) -> Result<File, u32> {
    read_within(bytes, usize::MAX)
}

/// The file, or the number of the first check that refuses.
pub fn read(bytes: &[u8]) -> Result<File, u32> {
    let file = read_prefix(bytes)?;
    refuse_if(bytes.len() > file.places[2], 12)?;
    Ok(file)
}

/// How many bytes the file of a setting of dimension k has.
pub fn file_length(form: Form, m: u32, k: usize) -> usize {
    let symbols = (1 << k) + proof_length(k);
    match form {
        Form::One => 19 + 2 * k + 2 * symbols,
        Form::Two => 21 + 2 * k + form.width(m) * symbols,
    }
}

/// The file in the other form, or the number of the first check that refuses: after the file's own 14, where form 1 cannot have the shift.
pub fn converted(bytes: &[u8]) -> Result<Vec<u8>, u32> {
    let f = read(bytes)?;
    refuse_if(f.shift != 0, 14)?;
    Ok(bytes_of(f.form.other(), f.modulus, &f.basis, 0, &f.word, &f.proof))
}

/// A setting and coefficients, and the form of the file that is made of them.
pub struct Message {
    pub form: Form,
    pub modulus: u32,
    pub basis: Vec<u16>,
    pub shift: u16,
    pub p: Vec<u16>,
}

/// The message, or the number of the first check that refuses: 6 after 5 where the file would exceed 40000 bytes or the room.
pub fn read_message(bytes: &[u8], room: usize) -> Result<Message, u32> {
    let mut rest = bytes;
    let Head { form, modulus, basis, shift } = read_setting(&mut rest)?;
    let k = basis.len();
    refuse_if(file_length(form, modulus, k) > room.min(FILE_LIMIT), 6)?;
    let p = read_record(&mut rest, COEFFICIENTS, 1 << (k - 3), 2, degree(modulus))?;
    refuse_if(!rest.is_empty(), 12)?;
    Ok(Message { form, modulus, basis, shift, p })
}

/// Dimension, coins, rejecting coins and the most reads of a coin.
pub fn coin_numbers(f: &File) -> [u64; 4] {
    let k = f.basis.len();
    let coins = 1u64 << coin_bits(k);
    let rejects = |coin: u64| {
        let (basis, read) = short_word(f.modulus, &f.basis, f.shift, &f.word, &f.proof, coin).expect("the file is accepted");
        !is_codeword(f.modulus, &basis, 0, &read)
    };
    let rejects = (0..coins).filter(|c| rejects(*c)).count();
    let most = (0..coins).map(|c| positions(k, c).len()).max().unwrap_or(0);
    [k as u64, coins, rejects as u64, most as u64]
}

/// What the coin counter tells of a file: the numbers of its coins, and at how many positions the word differs from the codeword within the
/// radius; `None` where there is no such codeword.
#[derive(Clone, Copy, Debug, PartialEq)]
pub struct Counts {
    pub numbers: [u64; 4],
    pub off: Option<usize>,
}

/// The counts of a file, or the number of a refusal.
pub fn count(bytes: &[u8]) -> Result<Counts, u32> {
    refuse_if(bytes.len() > FILE_LIMIT, 6)?;
    let f = read(bytes)?;
    let off = nearest(f.modulus, &f.basis, f.shift, &f.word).map(|c| differences(&c, &f.word));
    Ok(Counts { numbers: coin_numbers(&f), off })
}
