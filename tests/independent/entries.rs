//! The entry of the file at the front of a stream: the proved call beside the independent model.
use crate::file::Form;
use crate::files::{bytes, cuts, damaged_file, delivery, shifts_of};
use crate::stream::{front, Known};
use crate::{calls, file, Draw, Met, Tally};

/// Whether the proved call gives the model's entry. The number goes into the table, or 100 for a file with rejecting coins.
fn same(stream: &[u8], known: &mut Known, met: &mut Met) -> bool {
    let (number, right) = match front(stream, known) {
        Err(n) => (n, [n as u64, 0, 0, 0, 0, 0]),
        Ok(e) => {
            let [k, coins, rejects, most] = e.numbers;
            (if rejects == 0 { 0 } else { 100 }, [0, k, coins, rejects, most, e.end as u64])
        }
    };
    met.add(number);
    calls::entry(stream) == right
}

/// Fewer than n bytes of any value.
pub fn noise(d: &mut Draw, n: u64) -> Vec<u8> {
    (0..d.below(n)).map(|_| d.next() as u8).collect()
}

pub fn cut(d: &mut Draw, f: &mut Vec<u8>) {
    f.truncate(d.below(f.len() as u64) as usize);
}

/// One of the two forms.
pub fn any_form(d: &mut Draw) -> Form {
    [Form::One, Form::Two][d.below(2) as usize]
}

/// The setting of a file of dimension k, with two empty records behind it.
pub fn head(d: &mut Draw, form: Form, k: usize) -> Vec<u8> {
    let s = shifts_of(form).setting(d, k);
    file::bytes_of(form, s.m, &s.b, s.shift, &[], &[])
}

/// A setting of dimension 9 or more, right or not, whole or not, with two empty records or nothing behind it.
pub fn large(d: &mut Draw, form: Form) -> Vec<u8> {
    let k = 9 + d.below(6) as usize;
    let mut s = shifts_of(form).setting(d, k);
    if d.below(3) == 0 {
        shifts_of(form).spoil(d, &mut s);
    }
    let mut f = file::bytes_of(form, s.m, &s.b, s.shift, &[], &[]);
    match d.below(4) {
        0 => f.truncate(form.heads(s.m, s.b.len())[1]),
        1 => cut(d, &mut f),
        _ => {}
    }
    f
}

/// Files of a form that are right, damaged, cut or too large, with files of either form, any bytes or nothing behind them.
fn fronts(t: &mut Tally, form: Form) {
    let mut d = Draw(0x428a2f98d728ae22);
    let (mut wrong, mut met, mut known) = (0, Met::default(), Known::new());
    for round in 0..3000u64 {
        let (k, next) = (if round % 100 == 0 { 8 } else { 3 + d.below(5) as usize }, 3 + d.below(4) as usize);
        let mut f = if round % 8 == 1 { large(&mut d, form) } else { damaged_file(&mut d, form, k) };
        if d.below(6) == 0 && !f.is_empty() {
            cut(&mut d, &mut f);
        }
        match d.below(4) {
            0 => {}
            1 => f.extend(noise(&mut d, 60)),
            _ => {
                let other = any_form(&mut d);
                f.extend(bytes(&delivery(&mut d, other, next)));
            }
        }
        wrong += u64::from(!same(&f, &mut known, &mut met));
    }
    t.answers(&form.name("entries"), wrong, &met, &[0, 1, 2, 3, 4, 5, 6, 9, 11, 12, 100]);
}

pub fn all(t: &mut Tally) {
    for form in [Form::One, Form::Two] {
        let mut known = Known::new();
        cuts(t, form, "entries cut at every length", |f, met| same(f, &mut known, met));
        fronts(t, form);
    }
}
