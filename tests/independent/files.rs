//! Stored files: the proved reader and checker beside the independent model.
use crate::file::Form;
use crate::shifts::proof_at;
use crate::{calls, damage, degree, file, model, Draw, Met, Setting, Shifts, Tally};

/// A good setting of dimension k, and the coefficients, the word and the proof of a polynomial, to be stored in a form.
pub struct Delivery {
    pub form: Form,
    pub s: Setting,
    pub p: Vec<u16>,
    pub w: Vec<u16>,
    pub proof: Vec<u16>,
}

/// The shifts that a form can have.
pub fn shifts_of(form: Form) -> Shifts {
    if form == Form::One { Shifts::Zero } else { Shifts::Any }
}

pub fn delivery(d: &mut Draw, form: Form, k: usize) -> Delivery {
    let s = shifts_of(form).setting(d, k);
    delivery_in(d, form, s)
}

pub fn delivery_in(d: &mut Draw, form: Form, s: Setting) -> Delivery {
    let p = d.list(1 << (s.b.len() - 3), 1 << s.l);
    let (w, proof) = (model::word_of(s.m, &s.b, s.shift, &p), proof_at(&s, &p));
    Delivery { form, s, p, w, proof }
}

pub fn bytes(x: &Delivery) -> Vec<u8> {
    file::bytes_of(x.form, x.s.m, &x.s.b, x.s.shift, &x.w, &x.proof)
}

/// Whether both checkers from C, without and with the degree, give this answer; a refused call leaves the numbers as they came.
pub fn answers(f: &[u8], coin: u64, code: u64) -> bool {
    let (answer, numbers) = degree::host_answer(code, calls::UNREAD);
    calls::check_file(f, coin) == (answer, numbers[0]) && calls::check_degree(f, coin, calls::UNREAD) == (answer, numbers)
}

/// Whether reader and checkers answer as the model. The answer goes into the table.
pub fn same(f: &[u8], coin: u64, met: &mut Met) -> bool {
    let (number, bits, code) = match file::read(f) {
        Err(n) => (n, 0, 131072 + n as u64),
        Ok(x) => (0, model::coin_bits(x.basis.len()), model::check(x.modulus, &x.basis, x.shift, &x.word, &x.proof, coin)),
    };
    met.add(degree::host_answer(code, calls::UNREAD).0);
    (calls::file_refusal(f), calls::coin_bits(f)) == (number, bits) && answers(f, coin, code) && degree::possible(code)
}

/// Files of a form that are cut at every length, by a comparison that puts its answer into the table. Each cut is a list of its own, of
/// exactly that length.
pub fn cuts(t: &mut Tally, form: Form, name: &str, mut same: impl FnMut(&[u8], &mut Met) -> bool) {
    let mut d = Draw(0xa54ff53a5f1d36f1);
    let (mut wrong, mut met) = (0, Met::default());
    for k in 3..=7 {
        let whole = bytes(&delivery(&mut d, form, k));
        for n in 0..=whole.len() {
            wrong += u64::from(!same(&whole[..n].to_vec().into_boxed_slice(), &mut met));
        }
    }
    t.answers(&form.name(name), wrong, &met, &[0, 11]);
}

/// Some bytes of a file changed, most often in the heads of its records, or bytes put after it.
pub fn spoil(d: &mut Draw, f: &mut Vec<u8>, heads: [usize; 3]) {
    for _ in 0..1 + d.below(2) {
        let at = match d.below(4) {
            0 => d.below(f.len() as u64) as usize,
            _ => heads[d.below(3) as usize] + d.below(14) as usize,
        };
        match d.below(10) {
            0 => f.push(d.next() as u8),
            _ if at < f.len() => f[at] = if d.below(2) == 0 { f[at] ^ 1 << d.below(8) } else { d.next() as u8 },
            _ => {}
        }
    }
}

/// A file that is right, or whose setting, symbols or bytes are spoilt.
pub fn damaged_file(d: &mut Draw, form: Form, k: usize) -> Vec<u8> {
    let mut x = delivery(d, form, k);
    match d.below(6) {
        0 => damage(d, &mut x.w, 1 << x.s.l),
        1 => damage(d, &mut x.proof, 65536),
        2 | 3 => shifts_of(form).spoil(d, &mut x.s),
        _ => {}
    }
    let mut f = bytes(&x);
    if d.below(3) == 1 {
        spoil(d, &mut f, form.heads(x.s.m, k));
    }
    f
}

fn damaged(t: &mut Tally, form: Form) {
    let mut d = Draw(0x510e527fade682d1);
    let (mut wrong, mut met) = (0, Met::default());
    for round in 0..6000u64 {
        let k = if round % 8 == 0 { 7 } else { 3 + d.below(4) as usize };
        let f = damaged_file(&mut d, form, k);
        let coin = if d.below(8) == 0 { d.next() } else { d.below(1 << model::coin_bits(k)) };
        wrong += u64::from(!same(&f, coin, &mut met));
    }
    t.answers(&form.name("damaged files"), wrong, &met, &[0, 1, 2, 3, 4, 5, 8, 9, 11, 12, 100]);
}

/// A reading as the readers code it; a refused file has the form 1, two bytes a symbol and the shift 0.
pub fn coded(r: Result<file::File, u32>) -> calls::Places {
    r.map_or_else(|n| [n as u64, 0, 0, 0, 1, 2, 0], |x| {
        let [word, proof, end] = x.places.map(|at| at as u64);
        let form = if x.form == Form::One { 1 } else { 2 };
        [0, word, proof, end, form, x.form.width(x.modulus) as u64, x.shift as u64]
    })
}

/// What both readers hand back, of files that are right, damaged, cut or followed by bytes.
fn places(t: &mut Tally, form: Form) {
    let mut d = Draw(0xe9b5dba58189dbbc);
    let (mut wrong, mut whole, mut prefix) = ([0, 0], Met::default(), Met::default());
    for _ in 0..4000 {
        let k = 3 + d.below(5) as usize;
        let mut f = damaged_file(&mut d, form, k);
        match d.below(6) {
            0 => f.truncate(d.below(f.len() as u64) as usize),
            1 => f.resize(f.len() + 1 + d.below(9) as usize, 7),
            _ => {}
        }
        let (all, front) = (coded(file::read(&f)), coded(file::read_prefix(&f)));
        wrong[0] += u64::from(calls::places(&f) != all);
        wrong[1] += u64::from(calls::prefix_places(&f) != front);
        whole.add(all[0] as u32);
        // 200 for what the one reader takes and the other does not
        prefix.add(if all[0] == front[0] { front[0] as u32 } else { 200 });
    }
    t.answers(&form.name("places of files"), wrong[0], &whole, &[0, 1, 2, 3, 4, 5, 9, 11, 12]);
    t.answers(&form.name("places of records that bytes follow"), wrong[1], &prefix, &[0, 1, 2, 3, 4, 5, 9, 11, 12, 200]);
}

/// The bytes of both parts, and past their end 256 and the number; a refused file has empty parts.
fn parts(t: &mut Tally, form: Form) {
    let mut d = Draw(0x6a09e667f3bcc909);
    let (mut wrong, mut met) = (0, Met::default());
    for round in 0..300u64 {
        let x = delivery(&mut d, form, 3 + (round % 5) as usize);
        let mut f = bytes(&x);
        if round % 2 == 1 {
            spoil(&mut d, &mut f, form.heads(x.s.m, x.s.b.len()));
        }
        let (number, word, proof) = match file::read(&f) {
            Err(n) => (n, vec![], vec![]),
            Ok(y) => (0, file::packed(&y.word, form.width(y.modulus)), file::packed(&y.proof, form.width(y.modulus))),
        };
        let same = |part: &[u8], byte: fn(&[u8], u64) -> u32| {
            let right = part.iter().map(|x| *x as u32).chain([256 + number]);
            right.enumerate().all(|(at, x)| byte(&f, at as u64) == x)
        };
        wrong += u64::from(!same(&word, calls::word_byte) || !same(&proof, calls::proof_byte));
        met.add(if number == 0 { 0 } else { 200 });
    }
    t.answers(&form.name("parts of files, 200 for refused ones"), wrong, &met, &[0, 200]);
}

/// What stands beside the samples of one kind is what the model makes of them.
pub fn samples<T: AsRef<[u8]>>(t: &mut Tally, kind: &str, beside: &str, mut text: impl FnMut(&[u8]) -> T) {
    let (mut wrong, mut cases) = (0, 0);
    for entry in std::fs::read_dir("samples").expect("the samples are there") {
        let path = entry.expect("the samples can be listed").path();
        if path.extension().is_some_and(|e| e == kind) {
            let read = |p: &std::path::Path| std::fs::read(p).expect("a sample can be read");
            wrong += u64::from(read(&path.with_extension(beside)) != text(&read(&path)).as_ref());
            cases += 1;
        }
    }
    t.group(&format!("{beside} of the samples"), wrong, cases);
}

pub fn all(t: &mut Tally, form: Form) {
    cuts(t, form, "files cut at every length", |f, met| same(f, 0, met));
    damaged(t, form);
    places(t, form);
    parts(t, form);
}
