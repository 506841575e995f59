//! Dimensions 13 and 14, where a column has a proof of its own, so that a coin can take a row or a column in a column. The proof is the
//! prover's: the model has single symbols of it.
use crate::correction::same;
use crate::file::{file_length, Form};
use crate::largest::{bytes, gives, read_place, stored, whole, Call, Delivery};
use crate::lazy::{ends, Lazy};
use crate::scratch::sizes;
use crate::shifts::moved;
use crate::symbols::Pair;
use crate::{calls, degree, model, setting_of, Draw, Met, Setting, Shifts, Tally};

/// How a coin begins: its name, whether it takes a column, whether it takes a column then, and how many symbols it can read.
type Walk = (&'static str, [bool; 2], &'static [usize]);

const WALKS: [Walk; 4] = [
    ("a row in a row", [false, false], &[16, 64]),
    ("a column in a row", [false, true], &[32]),
    ("a row in a column", [true, false], &[64]),
    ("a column in a column", [true, true], &[16]),
];

/// A coin of dimension k that begins so.
fn coin(d: &mut Draw, k: usize, [first, second]: [bool; 2]) -> u64 {
    let at = 1 + if first { k / 2 + 2 } else { k - k / 2 };
    let rest = d.below(1 << model::coin_bits(k)) & !(1 | 1 << at);
    rest | first as u64 | (second as u64) << at
}

/// Proves the word into noise. The scratch must be zero then; the proof must be that of the polynomial at both ends of every stretch, in the
/// inner proofs and in the proofs in these too, and at some other positions.
fn proved(t: &mut Tally, name: &str, d: &mut Draw, s: &Setting, w: &[u16], lazy: &mut Lazy) -> Vec<u16> {
    let k = s.b.len();
    let (mut proof, mut scratch) = (d.list(model::proof_length(k), 65536), d.list(model::SCRATCH << k, 65536));
    let done = calls::prove(s.m, &s.b, s.shift, w, &mut proof, &mut scratch) == 0 && scratch.iter().all(|x| *x == 0);
    let mut at = ends(k, 2);
    at.extend((0..100000).map(|_| d.below(proof.len() as u64) as usize));
    let wrong = at.iter().filter(|i| lazy.symbol(model::Place::Proof(**i)) != proof[**i]).count();
    t.group(&format!("symbols of the proof {name}"), wrong as u64 + u64::from(!done), at.len() as u64);
    proof
}

/// The answer where one of so many symbols of a codeword is changed: the difference is 0 at all other elements, so its degree is the highest.
fn one_off(reads: usize) -> u64 {
    degree::rejected(reads, reads - 1, reads.ilog2() as usize)
}

/// The checker at coins of each walk. All that a coin reads is the model's. Then a symbol that it reads is changed, and is out of range where
/// there are such numbers; and at last all that it does not read is.
fn walks(t: &mut Tally, name: &str, d: &mut Draw, x: &mut Pair, lazy: &mut Lazy) {
    let (k, l) = (x.s.b.len(), x.s.l);
    let mut high = |n: usize| d.list(n, 32768).into_iter().map(|x| x | 32768).collect();
    let mut bare = Pair { s: x.s.clone(), w: high(x.w.len()), proof: high(x.proof.len()) };
    for (walk, begins, lengths) in WALKS {
        let (mut wrong, mut met) = (0, Met::default());
        for _ in 0..40 {
            let coin = coin(d, k, begins);
            let (read, at) = (model::positions(k, coin), read_place(d, k, coin));
            let mut right = |x: &Pair, answer: u64| x.same(coin, &mut met) && x.check(coin) == answer;
            let accept = read.len() as u64;
            wrong += u64::from(!lengths.contains(&read.len()) || read.iter().any(|p| lazy.symbol(*p) != x.at(*p)));
            wrong += u64::from(!right(x, accept));

            let kept = x.at(at);
            x.swap(at, kept ^ (1 + d.below((1 << l) - 1)) as u16);
            wrong += u64::from(!right(x, one_off(read.len())));
            if l < 16 {
                x.swap(at, kept | 1 << (l + d.below(16 - l as u64) as u32));
                wrong += u64::from(!right(x, 131072 + 9));
            }
            x.swap(at, kept);

            let kept: Vec<u16> = read.iter().map(|p| bare.swap(*p, x.at(*p))).collect();
            wrong += u64::from(!right(&bare, accept));
            for (place, symbol) in read.into_iter().zip(kept) {
                bare.swap(place, symbol);
            }
        }
        t.answers(&format!("coins that take {walk} {name}"), wrong, &met, if l < 16 { &[0, 9, 100] } else { &[0, 100] });
    }
}

/// The last coin, the first ones past it, and others.
fn last_coins(t: &mut Tally, name: &str, x: &Pair) {
    let (past, mut met) = (1u64 << model::coin_bits(x.s.b.len()), Met::default());
    let wrong = [0, past - 1, past, past + 1, 2 * past - 1, 1 << 32, 1 << 63, u64::MAX].into_iter().filter(|coin| {
        !x.same(*coin, &mut met) || (x.check(*coin) == 131072 + 8) != (*coin >= past)
    });
    let wrong = wrong.count() as u64;
    t.answers(&format!("the last coins {name}"), wrong, &met, &[0, 8]);
}

/// Lists that are one symbol too short or too long, and scratch that is one too short: 6 or 7, and nothing is changed.
fn lengths(t: &mut Tally, name: &str, d: &mut Draw, y: &Delivery) {
    let Pair { s, w, proof } = &y.x;
    let (mut wrong, mut met) = (0, Met::default());
    let mut seen = |number: u32, good: bool| {
        wrong += u64::from(!good);
        met.add(number);
    };
    let (longer, enough) = (|xs: &[u16]| [xs, &[0]].concat(), model::SCRATCH << y.k);
    let calls: [(Call, &[u16], &[u16]); 3] = [(calls::encode, &y.p, w), (calls::decode, w, &y.p), (calls::prove, w, proof)];
    for (call, given, right) in calls {
        for given in [&given[1..], &longer(given)] {
            seen(6, gives(d, y, call, given, 6, right, enough + 5));
        }
        seen(6, gives(d, y, call, given, 6, &right[1..], enough + 5));
        seen(6, gives(d, y, call, given, 6, &longer(right), enough + 5));
        seen(7, gives(d, y, call, given, 7, right, enough - 1));
    }
    let scratch = d.list(model::CORRECTION_SCRATCH << y.k, 65536);
    let (short, long) = (&w[1..], longer(w));
    for (word, out) in [(short, &w[..]), (&long, w), (w, short), (w, &long)] {
        seen(6, same(s, word, 6, vec![], out, &scratch));
    }
    seen(7, same(s, w, 7, vec![], &d.list(w.len(), 65536), &scratch[1..]));
    let refused = |w: &[u16], proof: &[u16]| calls::check(s.m, &s.b, s.shift, w, proof, 0) == 131072 + 6;
    [short, &long].into_iter().for_each(|w| seen(6, refused(w, proof)));
    [&proof[1..], &longer(proof)].into_iter().for_each(|proof| seen(6, refused(w, proof)));
    t.answers(&format!("lengths {name}"), wrong, &met, &[6, 7]);
}

fn dimension(t: &mut Tally, d: &mut Draw, shifts: Shifts, l: u32, k: usize) {
    let name = shifts.name(&format!("at k = {k}, l = {l}"));
    let s = setting_of(d, l, k);
    let s = shifts.put(d, s);
    let p = d.list(1 << (k - 3), 1 << l);
    let w = model::word_of(s.m, &s.b, s.shift, &p);
    let mut lazy = Lazy::new(s.m, &s.b, &moved(s.m, s.shift, &p));
    let proof = proved(t, &name, d, &s, &w, &mut lazy);
    let mut y = Delivery { k, p, x: Pair { s, w, proof } };
    walks(t, &name, d, &mut y.x, &mut lazy);
    drop(lazy);
    last_coins(t, &name, &y.x);
    whole(t, &name, d, &y);
    if shifts == Shifts::Zero {
        lengths(t, &name, d, &y);
    } else if k == 14 {
        sizes(t, &name, d, &y);
    }
    if (k, shifts) == (14, Shifts::Zero) {
        t.group("bytes of a file at k = 14", u64::from(file_length(Form::One, y.x.s.m, k) != 135135279), 1);
        stored(t, &name, Form::One, &y);
        bytes(t, &name, Form::One, d, &mut y, 16, |d, turn| coin(d, k, WALKS[turn / 2 % 4].1));
    }
}

pub fn all(t: &mut Tally) {
    let mut d = Draw(0xf57d4f7fee6ed178);
    dimension(t, &mut d, Shifts::Any, 16, 13);
    dimension(t, &mut d, Shifts::Zero, 13, 13);
    dimension(t, &mut d, Shifts::Zero, 16, 14);
    dimension(t, &mut d, Shifts::Any, 14, 14);
}
