//! A plain fast implementation with tables of logarithms, to compare speed with. It checks no input.

/// GF(2^16) by its logarithms.
pub struct Field {
    log: Vec<u32>,
    exp: Vec<u16>,
}

fn times_x(modulus: u32, x: u32) -> u32 {
    if x & 0x8000 != 0 { (x << 1) ^ modulus } else { x << 1 }
}

fn slow_product(modulus: u32, a: u32, b: u32) -> u32 {
    (0..16).rev().fold(0, |s, i| times_x(modulus, s) ^ if b >> i & 1 == 1 { a } else { 0 })
}

impl Field {
    /// A modulus of degree 16.
    pub fn new(modulus: u32) -> Field {
        for g in 2..65536u32 {
            let (mut log, mut exp, mut x) = (vec![0; 65536], vec![0; 131072], 1u32);
            for i in 0..65535usize {
                log[x as usize] = i as u32;
                exp[i] = x as u16;
                exp[i + 65535] = x as u16;
                x = slow_product(modulus, x, g);
                if x == 1 && i < 65534 {
                    break;
                }
            }
            if exp[65534] != 0 {
                return Field { log, exp };
            }
        }
        unreachable!("a field has a generator")
    }

    pub fn mul(&self, a: u16, b: u16) -> u16 {
        if a == 0 || b == 0 {
            return 0;
        }
        self.exp[(self.log[a as usize] + self.log[b as usize]) as usize]
    }

    pub fn div(&self, a: u16, b: u16) -> u16 {
        if a == 0 {
            return 0;
        }
        self.exp[(self.log[a as usize] + 65535 - self.log[b as usize]) as usize]
    }

    /// Adds c times each symbol of `from` to `to`.
    pub fn add_scaled(&self, c: u16, from: &[u16], to: &mut [u16]) {
        if c == 0 {
            return;
        }
        let l = self.log[c as usize];
        for (t, &x) in to.iter_mut().zip(from) {
            if x != 0 {
                *t ^= self.exp[(l + self.log[x as usize]) as usize];
            }
        }
    }
}

/// The largest dimension.
pub const MAX: usize = 14;

/// images[i][j] is W_j(b_(i+1)) / W_j(b_(j+1)), and steps[j] is W_j(b_(j+1)).
#[derive(Clone)]
pub struct Space {
    pub k: usize,
    images: [[u16; 16]; MAX],
    steps: [u16; MAX],
}

fn xor(a: [u16; 16], b: [u16; 16]) -> [u16; 16] {
    std::array::from_fn(|j| a[j] ^ b[j])
}

impl Space {
    pub fn new(f: &Field, basis: &[u16]) -> Space {
        let mut s = Space { k: basis.len(), images: [[0; 16]; MAX], steps: [0; MAX] };
        let mut w = basis.to_vec();
        for j in 0..s.k {
            let step = w[j];
            s.steps[j] = step;
            for i in 0..s.k {
                s.images[i][j] = f.div(w[i], step);
                w[i] = f.mul(w[i], w[i] ^ step);
            }
        }
        s
    }

    /// The images of the element with the bits of i over the basis from number `from` on.
    pub fn element(&self, from: usize, i: usize) -> [u16; 16] {
        (0..self.k - from).filter(|j| i >> j & 1 == 1).fold([0; 16], |s, j| xor(s, self.images[from + j]))
    }

    pub fn row(&self, r: usize) -> Space {
        let h = self.k / 2;
        let mut s = self.clone();
        s.k = h + 3;
        if r >= 4 {
            s.images[h + 2] = self.element(h, r);
        }
        s
    }

    pub fn column(&self) -> Space {
        let h = self.k / 2;
        let mut s = Space { k: self.k - h, images: [[0; 16]; MAX], steps: [0; MAX] };
        for i in 0..s.k {
            for j in 0..s.k {
                s.images[i][j] = self.images[i + h][j + h];
            }
        }
        s
    }
}

pub fn transform(f: &Field, s: &Space, shift: [u16; 16], values: &mut [u16]) {
    if values.len() == 1 {
        return;
    }
    let (low, high) = values.split_at_mut(values.len() / 2);
    let j = low.len().trailing_zeros() as usize;
    f.add_scaled(shift[j], high, low);
    high.iter_mut().zip(low.iter()).for_each(|(y, x)| *y ^= x);
    transform(f, s, shift, low);
    transform(f, s, xor(shift, s.images[j]), high);
}

pub fn inverse(f: &Field, s: &Space, shift: [u16; 16], values: &mut [u16]) {
    if values.len() == 1 {
        return;
    }
    let (low, high) = values.split_at_mut(values.len() / 2);
    let j = low.len().trailing_zeros() as usize;
    inverse(f, s, shift, low);
    inverse(f, s, xor(shift, s.images[j]), high);
    high.iter_mut().zip(low.iter()).for_each(|(y, x)| *y ^= x);
    f.add_scaled(shift[j], high, low);
}

/// The coefficients of W_j at x^(2^i), for each j below the given number.
pub fn vanishing(f: &Field, s: &Space, count: usize) -> Vec<Vec<u16>> {
    let mut all = vec![vec![1u16]];
    for j in 0..count {
        let w = &all[j];
        let next = (0..=j + 1).map(|i| {
            let square = if i > 0 { f.mul(w[i - 1], w[i - 1]) } else { 0 };
            square ^ if i <= j { f.mul(s.steps[j], w[i]) } else { 0 }
        });
        let next: Vec<u16> = next.collect();
        all.push(next);
    }
    all
}

/// Adds c W_j without its highest term, from index i - 2^j on.
fn add_low_terms(f: &Field, w: &[u16], j: usize, i: usize, p: &mut [u16]) {
    let c = p[i];
    for t in 0..j {
        p[i - (1 << j) + (1 << t)] ^= f.mul(c, w[t]);
    }
}

pub fn encode(f: &Field, s: &Space, p: &[u16]) -> Vec<u16> {
    let m = s.k - 3;
    let w = vanishing(f, s, m);
    let mut d = p.to_vec();
    for j in (0..m).rev() {
        for chunk in d.chunks_mut(2 << j) {
            (1 << j..2 << j).rev().for_each(|i| add_low_terms(f, &w[j], j, i, chunk));
            chunk[1 << j..].iter_mut().for_each(|x| *x = f.mul(*x, s.steps[j]));
        }
    }
    (0..8).flat_map(|r| {
        let mut block = d.clone();
        transform(f, s, s.element(m, r), &mut block);
        block
    }).collect()
}

/// The coefficients over the novel basis of a codeword.
pub fn block_coefficients(f: &Field, s: &Space, word: &[u16]) -> Option<Vec<u16>> {
    let size = word.len() / 8;
    let mut first: Vec<u16> = Vec::new();
    for r in 0..8 {
        let mut block = word[r * size..(r + 1) * size].to_vec();
        inverse(f, s, s.element(s.k - 3, r), &mut block);
        if r == 0 {
            first = block;
        } else if block != first {
            return None;
        }
    }
    Some(first)
}

/// From coefficients over the novel basis to those of powers of x; w has the polynomials W_j.
pub fn to_powers(f: &Field, s: &Space, w: &[Vec<u16>], d: &mut [u16]) {
    for j in 0..d.len().trailing_zeros() as usize {
        for chunk in d.chunks_mut(2 << j) {
            chunk[1 << j..].iter_mut().for_each(|x| *x = f.div(*x, s.steps[j]));
            (1 << j..2 << j).for_each(|i| add_low_terms(f, &w[j], j, i, chunk));
        }
    }
}

pub fn decode(f: &Field, s: &Space, word: &[u16]) -> Option<Vec<u16>> {
    let mut d = block_coefficients(f, s, word)?;
    to_powers(f, s, &vanishing(f, s, s.k - 3), &mut d);
    Some(d)
}
