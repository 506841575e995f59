//! Processor time of a coin that rejects, and so tells a degree, beside that of one that accepts. All of them take rows down to one of 64
//! symbols.
use crate::plain::MAX;
use crate::{calls, coefficients, coin_at, degree, model, times, MODULUS};

/// How many coins of each kind take turns: at k = 7 there are 16 rows for the three kinds.
const COINS: usize = 5;

/// A coin that takes rows down to one of 64 symbols, and its positions.
type RowCoin = (u64, Vec<model::Place>);

/// Such coins, no two of which have a position in common.
fn row_coins(k: usize) -> Vec<RowCoin> {
    let mut found: Vec<RowCoin> = vec![];
    for coin in (0..).map(|i| 2 * (coin_at(k, i) / 2)) {
        let at = model::positions(k, coin);
        if at.len() == 64 && found.iter().all(|(_, other)| other[0] != at[0]) {
            found.push((coin, at));
        }
        if found.len() == 3 * COINS {
            break;
        }
    }
    found
}

/// Adds symbols at places.
pub fn add(word: &mut [u16], proof: &mut [u16], at: &[model::Place], symbols: &[u16]) {
    for (place, x) in at.iter().zip(symbols) {
        match place {
            model::Place::Word(i) => word[*i] ^= x,
            model::Place::Proof(i) => proof[*i] ^= x,
        }
    }
}

/// Coins that accept, coins at words of the highest degree, with one symbol changed, and coins at words of the least that is rejected, with
/// x^8 added.
fn dimension(basis: &[u16]) {
    let k = basis.len();
    let (mut w, mut pi, mut s) = (vec![0; 1 << k], vec![0; model::proof_length(k)], vec![0; 4 << k]);
    assert_eq!(calls::encode(MODULUS, basis, 0, &coefficients(k), &mut w, &mut s), 0);
    assert_eq!(calls::prove(MODULUS, basis, 0, &w, &mut pi, &mut s), 0);
    let coins = row_coins(k);
    for (n, (coin, at)) in coins.iter().enumerate().skip(COINS) {
        if n < 2 * COINS {
            add(&mut w, &mut pi, &at[40..41], &[1]);
        } else {
            add(&mut w, &mut pi, at, &model::word_of(MODULUS, &model::leaf_basis(MODULUS, basis, *coin), 0, &[0, 0, 0, 0, 0, 0, 0, 0, 1]));
        }
    }
    let check = |kind: usize, i: u64| calls::check(MODULUS, basis, 0, &w, &pi, coins[kind * COINS + i as usize % COINS].0);
    let [accept, highest, least, checks] = times([
        &mut |i| assert_eq!(check(0, i), 64),
        &mut |i| assert_eq!(check(1, i), degree::rejected(64, 63, 6)),
        &mut |i| assert_eq!(check(2, i), degree::rejected(64, 8, 6)),
        &mut |_| assert_eq!(calls::setting(MODULUS, basis, 0), 0),
    ]);
    let [a, b, c] = [accept, highest, least].map(|ns| ns - checks);
    println!("{k:4} {a:11.1} {b:11.1} {c:11.1} {:17.1} {:11.1}", b - a, c - a);
}

pub fn all(basis: &[u16]) {
    println!("\none coin that reads 64 symbols on a checked setting (nanoseconds): its time less that of checks 1 to 5, and what a reject adds");
    println!("   k      accept   degree 63    degree 8   more: degree 63    degree 8");
    (7..=MAX).for_each(|k| dimension(&basis[..k]));
}
