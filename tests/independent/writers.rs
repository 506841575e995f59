//! What is made from files and symbols: the proved writer and message program beside the independent model.
use crate::file::{Form, Message};
use crate::files::{bytes, delivery, samples, shifts_of, spoil};
use crate::shifts::moved;
use crate::{calls, damage, file, model, outside, Draw, Met, Tally};

/// The writer of a form, with right and wrong settings, lengths and symbols; the output is compared whole.
fn written(t: &mut Tally, form: Form) {
    let mut d = Draw(0x9b05688c2b3e6c1f);
    let (mut wrong, mut met) = (0, Met::default());
    for round in 0..2000u64 {
        let k = 3 + d.below(5) as usize;
        let mut x = delivery(&mut d, form, k);
        match round % 10 {
            0 | 1 => shifts_of(form).spoil(&mut d, &mut x.s),
            2 => x.w.push(0),
            3 => damage(&mut d, &mut x.w, 65536),
            4 => damage(&mut d, &mut x.proof, 65536),
            5 => drop(x.proof.pop()),
            _ => {}
        }
        let right = bytes(&x);
        let room = d.near(right.len());
        let number = match model::setting(x.s.m, &x.s.b, x.s.shift) {
            0 if x.w.len() != 1 << k || x.proof.len() != model::proof_length(k) || room != right.len() => 6,
            0 if outside(x.s.m, &x.w) || outside(x.s.m, &x.proof) => 9,
            n => n,
        };
        let old: Vec<u8> = (0..room).map(|_| d.next() as u8).collect();
        let mut out = old.clone();
        let got = match form {
            Form::One => calls::write(x.s.m, &x.s.b, &x.w, &x.proof, &mut out),
            Form::Two => calls::write_form_two(x.s.m, &x.s.b, x.s.shift, &x.w, &x.proof, &mut out),
        };
        wrong += u64::from(got != number || out != if number == 0 { right } else { old });
        met.add(number);
    }
    t.answers(&form.name("writer of files"), wrong, &met, &[0, 1, 2, 3, 4, 5, 6, 9]);
}

/// A message that is right or not, of dimension k, and how many bytes its file has.
fn message(d: &mut Draw, form: Form, k: usize, round: u64) -> (Vec<u8>, usize) {
    let mut x = delivery(d, form, k);
    match round % 12 {
        1 | 3 => shifts_of(form).spoil(d, &mut x.s),
        2 => damage(d, &mut x.p, 65536),
        4 => x.p.push(1),
        _ => {}
    }
    let mut f = file::message_of(form, x.s.m, &x.s.b, x.s.shift, &x.p);
    match round % 12 {
        5 => spoil(d, &mut f, form.heads(x.s.m, k)),
        6 => f.truncate(d.below(f.len() as u64) as usize),
        7 => f.push(0),
        _ => {}
    }
    (f, file::file_length(form, x.s.m, k))
}

/// The file of a message: its word holds P at the shifted elements, and its proof is that of P(x + shift) over the space.
fn made(y: &Message) -> Vec<u8> {
    let (m, b, p) = (y.modulus, &y.basis, moved(y.modulus, y.shift, &y.p));
    file::bytes_of(y.form, m, b, y.shift, &model::word_of(m, b, y.shift, &y.p), &model::proof_of(m, b, &p))
}

/// From coefficients in bytes to a stored file of the same form, in enough room and in too little; the output is compared whole.
fn messages(t: &mut Tally, form: Form) {
    let mut d = Draw(0x5be0cd19137e2179);
    let (mut wrong, mut met) = (0, Met::default());
    for round in 0..1200u64 {
        let k = if round < 10 { 8 } else if round % 40 == 11 { 9 } else { 3 + (round % 5) as usize };
        let (f, all) = message(&mut d, form, k, round);
        let room = [40000, all, all - 1, 0][d.below(4) as usize];
        let old: Vec<u8> = (0..room).map(|i| (i * 7) as u8).collect();
        let mut out = old.clone();
        let got = calls::make(&f, &mut out);
        let read = file::read_message(&f, room);
        met.add(*read.as_ref().err().unwrap_or(&0));
        let (right, whole) = match read {
            Err(n) => (65536 + n, old),
            Ok(y) => {
                let file = made(&y);
                (file.len() as u32, [&file[..], &old[file.len()..]].concat())
            }
        };
        wrong += u64::from(got != right || out != whole);
    }
    t.answers(&form.name("files from coefficients"), wrong, &met, &[0, 1, 2, 3, 4, 5, 6, 9, 11, 12]);
}

pub fn all(t: &mut Tally) {
    for form in [Form::One, Form::Two] {
        written(t, form);
        messages(t, form);
    }
    samples(t, "message", "stored", |f| made(&file::read_message(f, file::FILE_LIMIT).ok().expect("a message is right")));
}
