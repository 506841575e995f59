//! The two forms of a stored file: readers, checker and writers where forms, marks, heads, widths and shifts vary.
use crate::file::{self, Form};
use crate::files::{bytes, coded, delivery, delivery_in, same, shifts_of, Delivery};
use crate::{calls, damage, model, setting_of, Draw, Met, Setting, Tally};

pub const FORMS: [Form; 2] = [Form::One, Form::Two];

/// A delivery in a field of degree l.
pub fn delivery_at(d: &mut Draw, form: Form, l: u32, k: usize) -> Delivery {
    let s = setting_of(d, l, k);
    let s = shifts_of(form).put(d, s);
    delivery_in(d, form, s)
}

/// Each form at each degree, and at each dimension up to 8 that the degree has.
pub fn sizes() -> impl Iterator<Item = (Form, u32, usize)> {
    FORMS.into_iter().flat_map(|form| (3..=16).flat_map(move |l| (3..=8.min(l as usize)).map(move |k| (form, l, k))))
}

/// Whether both readers and the checker answer as the model.
fn alike(f: &[u8], met: &mut Met) -> bool {
    let readers = calls::places(f) == coded(file::read(f)) && calls::prefix_places(f) == coded(file::read_prefix(f));
    same(f, 0, met) && readers
}

/// How many bytes a file has, by its records.
fn length(form: Form, l: u32, k: usize) -> usize {
    let (shift, symbol) = if form == Form::One { (0, 2) } else { (2, if l <= 8 { 1 } else { 2 }) };
    (2 + 4 + 1 + 2 * k + shift) + (2 + 4 + symbol * (1 << k)) + (2 + 4 + symbol * model::proof_length(k))
}

/// Whole files of each size, without their last byte, and with one more: the model reads what it wrote.
fn sized(t: &mut Tally) {
    let mut d = Draw(0x19a4c116b8d2d0c8);
    let (mut wrong, mut met) = (0, Met::default());
    for (form, l, k) in sizes() {
        let x = delivery_at(&mut d, form, l, k);
        let mut f = bytes(&x);
        let y = file::read(&f).ok().expect("the file is accepted");
        let setting = (y.form, y.modulus, &y.basis, y.shift) == (form, x.s.m, &x.s.b, x.s.shift);
        wrong += u64::from(!setting || (&y.word, &y.proof) != (&x.w, &x.proof) || f.len() != length(form, l, k));
        wrong += u64::from([7, 8, u32::MAX].iter().any(|i| calls::place(&f, *i) != x.s.shift as u64));
        wrong += u64::from(!alike(&f, &mut met) || !alike(&f[..f.len() - 1], &mut met));
        f.push(0);
        wrong += u64::from(!alike(&f, &mut met));
    }
    t.answers("files of each form, degree and dimension", wrong, &met, &[0, 11, 12]);
}

/// The writers at each size: into the file's length they write it, into the other form's length, where it is another, they refuse by 6.
fn written(t: &mut Tally) {
    let mut d = Draw(0x1e376c085141ab53);
    let (mut wrong, mut met) = (0, Met::default());
    for (form, l, k) in sizes() {
        let x = delivery_at(&mut d, form, l, k);
        let right = bytes(&x);
        for room in FORMS.map(|f| length(f, l, k)) {
            let (number, whole) = if room == right.len() { (0, right.clone()) } else { (6, vec![9; room]) };
            let mut out = vec![9; room];
            let got = match form {
                Form::One => calls::write(x.s.m, &x.s.b, &x.w, &x.proof, &mut out),
                Form::Two => calls::write_form_two(x.s.m, &x.s.b, x.s.shift, &x.w, &x.proof, &mut out),
            };
            wrong += u64::from((got, out) != (number, whole));
            met.add(number);
        }
    }
    t.answers("writers at each form, degree and dimension", wrong, &met, &[0, 6]);
}

/// Symbols in the other number of bytes.
fn other_width(t: &mut Tally) {
    let mut d = Draw(0x2748774cdf8eeb99);
    let (mut wrong, mut met) = (0, Met::default());
    for (form, l, k) in sizes() {
        let x = delivery_at(&mut d, form, l, k);
        let (f, width, [_, word, proof]) = (bytes(&x), 3 - form.width(x.s.m), form.heads(x.s.m, k));
        let parts = [&f[..word + 6], &file::packed(&x.w, width), &f[proof..proof + 6], &file::packed(&x.proof, width)];
        wrong += u64::from(!alike(&parts.concat(), &mut met));
    }
    t.answers("files with symbols of the other width", wrong, &met, &[9, 11]);
}

/// The settings whose files are changed byte by byte: the borders of the width and of the field.
const CHANGED: [(u32, usize); 7] = [(3, 3), (8, 3), (9, 3), (16, 3), (7, 7), (8, 7), (15, 7)];

/// Marks of the other form, of other records and with their bytes swapped. All but the first are 11 where they are not the right ones.
fn marks(t: &mut Tally) {
    let mut d = Draw(0x34b0bcb5e19b48a8);
    let (mut wrong, mut met) = (0, Met::default());
    for (form, (l, k)) in FORMS.into_iter().flat_map(|form| CHANGED.map(|at| (form, at))) {
        let x = delivery_at(&mut d, form, l, k);
        let right = bytes(&x);
        let others = FORMS.iter().flat_map(|f| f.marks()).chain([*b"CO", *b"ES", *b"2S", *b"2W", *b"2P", *b"S1", *b"S3"]);
        for (mark, (i, head)) in others.flat_map(|mark| form.heads(x.s.m, k).into_iter().enumerate().map(move |at| (mark, at))) {
            let mut f = right.clone();
            f[head..head + 2].copy_from_slice(&mark);
            let number = file::read(&f).err().unwrap_or(0);
            wrong += u64::from(!alike(&f, &mut met) || (i > 0 && number != if f == right { 0 } else { 11 }));
        }
    }
    t.answers("marks of other forms and records", wrong, &met, &[0, 4, 11]);
}

/// Each byte of the heads, of the basis and of the shift, and the symbols beside the heads, at each value.
fn heads(t: &mut Tally) {
    let mut d = Draw(0x391c0cb3c5c95a63);
    for form in FORMS {
        let (mut wrong, mut met) = (0, Met::default());
        for (l, k) in CHANGED {
            let x = delivery_at(&mut d, form, l, k);
            let (mut f, [_, word, proof]) = (bytes(&x), form.heads(x.s.m, k));
            let places = (0..word + 8).chain(proof - 2..proof + 8).filter(|at| *at < f.len());
            for at in places.collect::<Vec<_>>() {
                let kept = f[at];
                for value in (0..=255).step_by(if k == 3 { 1 } else { 15 }) {
                    f[at] = value;
                    wrong += u64::from(!alike(&f, &mut met));
                }
                f[at] = kept;
            }
        }
        t.answers(&form.name("each byte of the heads changed"), wrong, &met, &[0, 1, 2, 3, 4, 5, 9, 11, 12, 100]);
    }
}

/// Settings with one fault, and its number: a basis element or, in form 2, the shift is not below 2^l; the basis is dependent.
fn faulty(s: &Setting, form: Form) -> Vec<(Vec<u16>, u16, u32)> {
    let (k, mut dependent) = (s.b.len(), s.b.clone());
    dependent[k - 1] = s.b[0];
    let mut all = vec![(dependent, s.shift, 5)];
    if s.l < 16 {
        let mut high = s.b.clone();
        high[k - 1] = 1 << s.l;
        all.push((high, s.shift, 4));
    }
    if s.l < 16 && form == Form::Two {
        all.push((s.b.clone(), 1 << s.l, 4));
    }
    all
}

/// The numbers that all calls on files, and the maker of files, give.
pub fn numbers(f: &[u8]) -> [u64; 8] {
    let make = calls::make(f, &mut []).wrapping_sub(65536);
    let [a, b, c, d] = [calls::file_refusal(f), calls::converted_length(f).0, calls::convert(f, &mut []), make].map(u64::from);
    [calls::place(f, 0), calls::prefix_place(f, 0), calls::total(f, 0), calls::entry(f)[0], a, b, c, d]
}

/// Setting records with a fault, whole and without their last bytes: basis and shift must be there before 4 and 5 are told.
fn cut_settings(t: &mut Tally) {
    let mut d = Draw(0x90befffa23631e28);
    let (mut wrong, mut met) = (0, Met::default());
    for (form, l, k) in sizes() {
        let s = delivery_at(&mut d, form, l, k).s;
        for (b, shift, number) in faulty(&s, form) {
            let (n, f) = (form.heads(s.m, k)[1], file::bytes_of(form, s.m, &b, shift, &[], &[]));
            for (length, number) in [(n - 2, 11), (n - 1, 11), (n, number)] {
                let g = f[..length].to_vec();
                wrong += u64::from(numbers(&g) != [number as u64; 8] || file::read(&g).err() != Some(number));
                met.add(number);
            }
        }
    }
    t.answers("settings with a fault, whole and cut", wrong, &met, &[4, 5, 11]);
}

/// All shifts of files that are right, or whose basis has an element out of range or is dependent: 4 for the shift comes before 5.
fn shifts(t: &mut Tally) {
    let settings: [(u32, [u16; 3], u32); 6] =
        [(11, [1, 2, 4], 0), (283, [1, 2, 4], 0), (515, [1, 2, 4], 0), (65581, [1, 2, 4], 0), (283, [1, 2, 256], 4), (283, [1, 2, 3], 5)];
    let (mut wrong, mut met) = (0, Met::default());
    for (m, b, number) in settings {
        let mut f = file::bytes_of(Form::Two, m, &b, 0, &[5; 8], &[]);
        for shift in 0..=65535u16 {
            f[13..15].copy_from_slice(&shift.to_le_bytes());
            let number = if shift as u32 >> model::degree(m) != 0 { 4 } else { number };
            wrong += u64::from([0, 6].map(|i| calls::place(&f, i)) != [number as u64, if number == 0 { shift as u64 } else { 0 }]);
            wrong += u64::from(shift % 97 == 0 && file::read(&f).err().unwrap_or(0) != number);
            met.add(number);
        }
    }
    t.answers("all shifts of some files", wrong, &met, &[0, 4, 5]);
}

/// Bytes of the paper's file in form 2 that are changed, its length, and the number that is known.
const KNOWN: [(&[(usize, u8)], usize, u32); 36] = [
    (&[], 35, 0), (&[], 34, 11), (&[], 36, 12), (&[], 0, 11), (&[], 1, 11), (&[], 2, 11), (&[(13, 7)], 35, 0), (&[(13, 8)], 35, 4),
    (&[(14, 1)], 35, 4), (&[(14, 128)], 35, 4),
    // the shift is out of range where the basis is too, or is dependent
    (&[(11, 8), (13, 8)], 35, 4), (&[(11, 3), (13, 8)], 35, 4), (&[(11, 3), (13, 7)], 35, 5),
    // a basis element or the shift is out of range, or the basis is dependent, where a byte of the shift is missing and where none is
    (&[(11, 8)], 13, 11), (&[(11, 8)], 14, 11), (&[(11, 8)], 15, 4), (&[(11, 3)], 14, 11), (&[(11, 3)], 15, 5), (&[(13, 8)], 14, 11),
    (&[(13, 8)], 15, 4), (&[], 15, 11),
    // checks 1 to 3 come before the basis and the shift
    (&[(2, 7)], 6, 11), (&[(2, 7)], 7, 1), (&[(2, 15)], 7, 2), (&[(6, 2)], 7, 3), (&[(6, 4)], 16, 11),
    // marks of form 1, counts of bytes, and which of two faults is first
    (&[(1, 0x45)], 35, 11), (&[(16, 0x4f)], 35, 11), (&[(30, 0x46)], 35, 11), (&[(17, 16)], 35, 12), (&[(17, 7)], 21, 12),
    (&[(21, 8)], 28, 11), (&[(21, 8)], 29, 9), (&[(21, 8), (31, 1)], 35, 9), (&[(31, 1)], 36, 12), (&[(13, 7), (28, 6)], 36, 12),
];

fn known(t: &mut Tally) {
    let right = [b"S2\x0b\0\0\0\x03\x01\0\x02\0\x04\0\0\0W2\x08\0\0\0".as_slice(), &[5; 8], b"P2\0\0\0\0"].concat();
    let (mut wrong, mut met) = (u64::from(right != file::bytes_of(Form::Two, 11, &[1, 2, 4], 0, &[5; 8], &[])), Met::default());
    for (edits, length, number) in KNOWN {
        let mut f = right.clone();
        edits.iter().for_each(|(at, to)| f[*at] = *to);
        f.resize(length, 0);
        wrong += u64::from(file::read(&f).err().unwrap_or(0) != number || !alike(&f, &mut met));
    }
    t.answers("the paper's file in form 2", wrong, &met, &[0, 1, 2, 3, 4, 5, 9, 11, 12]);
}

/// One word and one proof, whole or damaged, in form 1, and in form 2 at the shift 0 and at another: coins, totals and entries are the
/// same.
fn verdicts(t: &mut Tally) {
    let mut d = Draw(0x4ed8aa4ae3418acb);
    let (mut wrong, mut met) = (0, Met::default());
    for turn in 0..120 {
        let mut x = delivery(&mut d, Form::Two, 3 + turn % 6);
        match turn / 6 % 3 {
            0 => damage(&mut d, &mut x.w, 1 << x.s.l),
            1 => damage(&mut d, &mut x.proof, 1 << x.s.l),
            _ => {}
        }
        let f = bytes(&x);
        let (other, coins) = (d.below(1 << x.s.l) as u16, 1 << model::coin_bits(x.s.b.len()));
        let tried: Vec<u64> = (0..40).map(|_| d.below(coins)).chain([coins]).collect();
        for (form, shift) in [(Form::One, 0), (Form::Two, 0), (Form::Two, other)] {
            x = Delivery { form, s: Setting { shift, ..x.s }, ..x };
            let g = bytes(&x);
            wrong += tried.iter().filter(|coin| calls::check_file(&f, **coin) != calls::check_file(&g, **coin)).count() as u64;
            wrong += u64::from([0, 1, 2, 3, 4, 5].iter().any(|i| calls::total(&f, *i) != calls::total(&g, *i)));
            wrong += u64::from(calls::coin_bits(&f) != calls::coin_bits(&g) || calls::entry(&f)[..5] != calls::entry(&g)[..5]);
        }
        tried.iter().for_each(|coin| met.add(calls::check_file(&f, *coin).0));
    }
    t.answers("one delivery in both forms and at three shifts", wrong, &met, &[0, 8, 100]);
}

pub fn all(t: &mut Tally) {
    sized(t);
    written(t);
    other_width(t);
    marks(t);
    heads(t);
    cut_settings(t);
    shifts(t);
    known(t);
    verdicts(t);
}
