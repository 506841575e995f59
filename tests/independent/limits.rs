//! The largest dimension: bases of 13 and more elements, as settings of the calls on symbols and in the heads of files.
use crate::file::{self, Form};
use crate::files::shifts_of;
use crate::forms::{numbers, FORMS};
use crate::model::LARGEST;
use crate::{basis, calls, model, modulus, Draw, Met, Setting, Tally};

/// Settings of k elements at degree l, and the number of each: an independent basis where the degree has one, any basis, one that is
/// dependent, and one with an element out of range.
fn settings(d: &mut Draw, l: u32, k: usize) -> Vec<(Setting, u32)> {
    let m = modulus(d, l);
    let (i, j) = (d.below(k as u64) as usize, d.below(k as u64) as usize);
    let all = d.list(k, 1 << l);
    let (mut sum, mut high) = (all.clone(), all.clone());
    sum[i] = (0..k).filter(|x| *x != i && (*x == j || x % 3 == 0)).fold(0, |s, x| s ^ sum[x]);
    let number = if k > LARGEST { 3 } else { 5 };
    let any = if k > LARGEST || !model::independent(&all) { number } else { 0 };
    let mut found = vec![(all, any), (sum, number)];
    if l < 16 {
        high[i] = (d.below(65536) as u32 | 1 << l) as u16;
        found.push((high, if k > LARGEST { 3 } else { 4 }));
    }
    if l as usize >= k {
        found.push((basis(d, l, k), if k > LARGEST { 3 } else { 0 }));
    }
    found.into_iter().map(|(b, number)| (Setting { l, m, b, shift: 0 }, number)).collect()
}

/// 13 to 16 elements at each degree, so that a field is too small for most of them.
fn each(d: &mut Draw, mut turn: impl FnMut(&mut Draw, Setting, u32)) {
    for (l, k) in (3..=16).flat_map(|l| (LARGEST - 1..=LARGEST + 2).map(move |k| (l, k))) {
        for _ in 0..5 {
            for (s, number) in settings(d, l, k) {
                turn(d, s, number);
            }
        }
    }
}

/// The numbers of the calls on symbols with empty lists.
fn on_symbols(s: &Setting) -> [u64; 7] {
    let Setting { m, b, shift, .. } = s;
    let found = [
        calls::encode(*m, b, *shift, &[], &mut [], &mut []),
        calls::decode(*m, b, *shift, &[], &mut [], &mut []),
        calls::prove(*m, b, *shift, &[], &mut [], &mut []),
        calls::write(*m, b, &[], &[], &mut []),
        calls::write_form_two(*m, b, *shift, &[], &[], &mut []),
    ];
    let [e, p, q, w, v] = found.map(u64::from);
    [e, p, q, w, v, calls::correct(*m, b, *shift, &[], &mut [], &mut []) - 65536, calls::check(*m, b, *shift, &[], &[], 0) - 131072]
}

/// Each call on symbols gives the setting's number, and 6 for the lengths of a setting that passes.
fn bases(t: &mut Tally) {
    let (mut wrong, mut met) = (0, Met::default());
    each(&mut Draw(0xd186b8c721c0c207), |_, s, number| {
        wrong += u64::from(model::setting(s.m, &s.b, 0) != number || calls::setting(s.m, &s.b, 0) != number);
        wrong += u64::from(on_symbols(&s) != [if number == 0 { 6 } else { number as u64 }; 7]);
        met.add(number);
    });
    t.answers("bases of 13 to 16 elements at each degree", wrong, &met, &[0, 3, 4, 5]);
}

/// A file's number by all readers, and the number of the entry of a stream and of the maker, which 6 stops before the word.
fn same(f: &[u8], number: u32, limited: u32, met: &mut Met) -> bool {
    let model = (file::read(f).err(), file::read_within(f, file::FILE_LIMIT).err());
    let [n, e] = [number as u64, limited as u64];
    met.add(number);
    model == (Some(number), Some(limited)) && numbers(f) == [n, n, n, e, n, n, n, e]
}

/// Heads of 13 to 16 elements: cut in the basis, whole, with a count for a word of another dimension, and with the right count and few
/// symbols.
fn heads(t: &mut Tally, form: Form) {
    let (mut wrong, mut met) = (0, Met::default());
    each(&mut Draw(0xeada7dd6cde0eb1e), |d, s, number| {
        let s = shifts_of(form).put(d, s);
        let (k, at) = (s.b.len(), form.heads(s.m, s.b.len())[1]);
        let mut f = file::bytes_of(form, s.m, &s.b, s.shift, &[], &[]);
        let first = if number == 3 { 3 } else { 11 };
        let then = |n: u32| if number == 0 { n } else { number };
        wrong += u64::from(!same(&f[..7], first, first, &mut met) || !same(&f[..at - 1], first, first, &mut met));
        wrong += u64::from(!same(&f[..at], then(11), then(6), &mut met) || !same(&f, then(12), then(6), &mut met));
        f[at + 2..at + 6].copy_from_slice(&(1u32 << k).to_le_bytes());
        wrong += u64::from(!same(&f, then(11), then(6), &mut met));
    });
    t.answers(&form.name("heads of 13 to 16 elements at each degree"), wrong, &met, &[3, 4, 5, 11, 12]);
}

/// The lengths of proofs and the coin bits that the papers print: the model's follow from the rule.
const PRINTED: [(usize, usize, u32); 9] = [
    (6, 0, 0), (7, 896, 6), (8, 16128, 11), (9, 32256, 12), (10, 523264, 17), (11, 1046528, 18), (12, 2093056, 19), (13, 4415488, 20),
    (14, 67551232, 25),
];

fn tables(t: &mut Tally) {
    let wrong = PRINTED.iter().filter(|(k, s, r)| (model::proof_length(*k), model::coin_bits(*k)) != (*s, *r)).count();
    t.group("lengths of proofs and coin bits", wrong as u64, PRINTED.len() as u64);
}

pub fn all(t: &mut Tally) {
    tables(t);
    bases(t);
    FORMS.into_iter().for_each(|form| heads(t, form));
}
