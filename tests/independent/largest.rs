//! The larger dimensions: at each one delivery of the model, whole, and some coins of it, on symbols and from C. Its file has form 1 where
//! the shift is 0, else form 2.
use crate::codec::left;
use crate::file::Form;
use crate::files::{answers, coded};
use crate::scratch::sizes;
use crate::shifts::proof_at;
use crate::symbols::Pair;
use crate::{calls, degree, file, model, Draw, Met, Shifts, Tally};

pub struct Delivery {
    pub k: usize,
    pub p: Vec<u16>,
    pub x: Pair,
}

pub fn delivery(d: &mut Draw, shifts: Shifts, k: usize) -> Delivery {
    let s = shifts.setting(d, k);
    let p = d.list(1 << (k - 3), 1 << s.l);
    let (w, proof) = (model::word_of(s.m, &s.b, s.shift, &p), proof_at(&s, &p));
    Delivery { k, p, x: Pair { s, w, proof } }
}

pub type Call = fn(u32, &[u16], u16, &[u16], &mut [u16], &mut [u16]) -> u32;

/// Whether a call gives this number, and leaves its output and so many symbols of scratch, which start as noise, as it must.
pub fn gives(d: &mut Draw, y: &Delivery, call: Call, given: &[u16], number: u32, right: &[u16], room: usize) -> bool {
    let (old, scratch) = (d.list(right.len(), 65536), d.list(room, 65536));
    let (mut out, mut s) = (old.clone(), scratch.clone());
    let got = call(y.x.s.m, &y.x.s.b, y.x.s.shift, given, &mut out, &mut s);
    got == number && (out, s) == left(number, if number == 0 { right.to_vec() } else { vec![] }, &old, &scratch)
}

/// Encoder, decoder and prover on the delivery, and the last two on a word with one symbol changed, which is no codeword: above dimension 13
/// the model would take seconds to see it.
pub fn whole(t: &mut Tally, name: &str, d: &mut Draw, y: &Delivery) {
    let Delivery { k, p, x } = y;
    let mut off = x.w.clone();
    off[d.below(1 << k) as usize] ^= 1 + d.below((1 << x.s.l) - 1) as u16;
    let mut given = |call: Call, given: &[u16], number, right: &[u16]| gives(d, y, call, given, number, right, (model::SCRATCH << k) + 5);
    let right = [
        given(calls::encode, p, 0, &x.w),
        given(calls::decode, &x.w, 0, p),
        given(calls::prove, &x.w, 0, &x.proof),
        given(calls::decode, &off, 10, p),
        given(calls::prove, &off, 10, &x.proof),
        *k > 13 || !model::is_codeword(x.s.m, &x.s.b, x.s.shift, &off),
    ];
    t.group(&format!("word, decoding and proof {name}"), right.iter().filter(|x| !**x).count() as u64, 6);
}

/// A coin in range.
fn coin(d: &mut Draw, k: usize) -> u64 {
    d.below(1 << model::coin_bits(k))
}

/// A place that the coin reads.
pub fn read_place(d: &mut Draw, k: usize, coin: u64) -> model::Place {
    let read = model::positions(k, coin);
    read[d.below(read.len() as u64) as usize]
}

/// The checker on symbols; in every second turn a symbol that the coin reads is changed.
fn symbols(t: &mut Tally, name: &str, d: &mut Draw, y: &mut Delivery) {
    let (mut wrong, mut met) = (0, Met::default());
    for turn in 0..200 {
        let coin = coin(d, y.k);
        let at = read_place(d, y.k, coin);
        let kept = y.x.swap(at, d.below(1 << y.x.s.l) as u16);
        if turn % 2 == 0 {
            y.x.swap(at, kept);
        }
        wrong += u64::from(!y.x.same(coin, &mut met));
        y.x.swap(at, kept);
    }
    t.answers(&format!("coins {name}"), wrong, &met, &[0, 100]);
}

fn form_of(shifts: Shifts) -> Form {
    if shifts == Shifts::Zero { Form::One } else { Form::Two }
}

fn file_of(form: Form, x: &Pair) -> Vec<u8> {
    file::bytes_of(form, x.s.m, &x.s.b, x.s.shift, &x.w, &x.proof)
}

/// Where the bytes of a place stand in the file.
fn bytes_at(form: Form, y: &Delivery, at: model::Place) -> std::ops::Range<usize> {
    let ([_, word, proof], width) = (form.heads(y.x.s.m, y.k), form.width(y.x.s.m));
    let from = match at {
        model::Place::Word(i) => word + 6 + width * i,
        model::Place::Proof(i) => proof + 6 + width * i,
    };
    from..from + width
}

/// Writer, readers and converter on the delivery's file.
pub fn stored(t: &mut Tally, name: &str, form: Form, y: &Delivery) {
    let x = &y.x;
    let f = file_of(form, x);
    let (read, converted) = (coded(file::read(&f)), file::converted(&f));
    let (mut out, mut other) = (vec![9; f.len()], vec![9; file::file_length(form.other(), x.s.m, y.k)]);
    let written = match form {
        Form::One => calls::write(x.s.m, &x.s.b, &x.w, &x.proof, &mut out),
        Form::Two => calls::write_form_two(x.s.m, &x.s.b, x.s.shift, &x.w, &x.proof, &mut out),
    } == 0 && out == f;
    out.fill(9);
    let number = calls::convert(&f, &mut other);
    let moved = match converted {
        Err(n) => number == n && other.iter().all(|b| *b == 9),
        Ok(right) => number == 0 && other == right && calls::convert(&other, &mut out) == 0 && out == f,
    };
    let right = [
        written,
        calls::places(&f) == read,
        calls::prefix_places(&f) == calls::places(&f),
        calls::coin_bits(&f) == model::coin_bits(y.k),
        moved,
        number == if x.s.shift == 0 { 0 } else { 14 },
    ];
    t.group(&format!("file {name}"), right.iter().filter(|x| !**x).count() as u64, 6);
}

/// The checker from C on the delivery's file at such coins; in every second turn a symbol that the coin reads is changed.
pub fn bytes(t: &mut Tally, name: &str, form: Form, d: &mut Draw, y: &mut Delivery, turns: usize, coin: impl Fn(&mut Draw, usize) -> u64) {
    let mut f = file_of(form, &y.x);
    let (mut wrong, mut met) = (0, Met::default());
    for turn in 0..turns {
        let coin = coin(d, turn);
        let at = read_place(d, y.k, coin);
        let symbol = d.below(1 << y.x.s.l) as u16;
        let kept = y.x.swap(at, symbol);
        let place = bytes_at(form, y, at);
        if turn % 2 == 0 {
            y.x.swap(at, kept);
        } else {
            f[place.clone()].copy_from_slice(&symbol.to_le_bytes()[..place.len()]);
        }
        let right = model::check(y.x.s.m, &y.x.s.b, y.x.s.shift, &y.x.w, &y.x.proof, coin);
        wrong += u64::from(!answers(&f, coin, right));
        met.add(degree::host_answer(right, calls::UNREAD).0);
        y.x.swap(at, kept);
        f[place.clone()].copy_from_slice(&kept.to_le_bytes()[..place.len()]);
    }
    t.answers(&format!("coins from C {name}"), wrong, &met, &[0, 100]);
}

pub fn all(t: &mut Tally, shifts: Shifts) {
    let mut d = Draw(0xbb67ae8584caa73b);
    for k in 8..=13 {
        let (mut y, name, form) = (delivery(&mut d, shifts, k), shifts.name(&format!("at k = {k}")), form_of(shifts));
        whole(t, &name, &mut d, &y);
        sizes(t, &name, &mut d, &y);
        symbols(t, &name, &mut d, &mut y);
        stored(t, &name, form, &y);
        bytes(t, &name, form, &mut d, &mut y, 50, |d, _| coin(d, k));
    }
}
