//! SHA-256 (FIPS 180-4), as the report prints it.

const ROUND: [u32; 64] = round_constants();
const START: [u32; 8] =
    [0x6a09e667, 0xbb67ae85, 0x3c6ef372, 0xa54ff53a, 0x510e527f, 0x9b05688c, 0x1f83d9ab, 0x5be0cd19];

/// Returns the first 32 bits of the fractional parts of the cube roots of the first 64 primes.
const fn round_constants() -> [u32; 64] {
    let mut constants = [0; 64];
    let (mut found, mut candidate) = (0, 2u128);
    while found < 64 {
        let mut divisor = 2;
        while candidate % divisor != 0 {
            divisor += 1;
        }
        if divisor == candidate {
            constants[found] = cube_root(candidate << 96) as u32;
            found += 1;
        }
        candidate += 1;
    }
    constants
}

/// Returns the greatest number whose cube is at most `value`.
const fn cube_root(value: u128) -> u128 {
    let (mut root, mut bit) = (0, 1u128 << 36);
    while bit > 0 {
        let next = root | bit;
        if next * next * next <= value {
            root = next;
        }
        bit >>= 1;
    }
    root
}

/// One round for the variables in their present places; the next round has them one place further. Three
/// rotations of a variable (by 6, 11 and 25, and by 2, 13 and 22) are taken one after another, which saves
/// two moves.
macro_rules! round {
    ($a:ident $b:ident $c:ident $d:ident $e:ident $f:ident $g:ident $h:ident, $word:expr) => {
        let high = (($e.rotate_right(14) ^ $e).rotate_right(5) ^ $e).rotate_right(6);
        let first = $h.wrapping_add(high).wrapping_add($g ^ ($e & ($f ^ $g))).wrapping_add($word);
        let low = (($a.rotate_right(9) ^ $a).rotate_right(11) ^ $a).rotate_right(2);
        $d = $d.wrapping_add(first);
        $h = first.wrapping_add(low).wrapping_add(($a & $b) | ($c & ($a | $b)));
    };
}

fn schedule(block: &[u8; 64]) -> [u32; 64] {
    let mut words = [0; 64];
    for (word, bytes) in words.iter_mut().zip(block.as_chunks::<4>().0) {
        *word = u32::from_be_bytes(*bytes);
    }
    for i in 16..64 {
        let (early, late) = (words[i - 15], words[i - 2]);
        let low = early.rotate_right(7) ^ early.rotate_right(18) ^ early >> 3;
        let high = late.rotate_right(17) ^ late.rotate_right(19) ^ late >> 10;
        words[i] = words[i - 16].wrapping_add(low).wrapping_add(words[i - 7]).wrapping_add(high);
    }
    words
}

fn compress(state: &mut [u32; 8], block: &[u8; 64]) {
    let words = schedule(block);
    let [mut a, mut b, mut c, mut d, mut e, mut f, mut g, mut h] = *state;
    for i in (0..64).step_by(8) {
        round!(a b c d e f g h, words[i].wrapping_add(ROUND[i]));
        round!(h a b c d e f g, words[i + 1].wrapping_add(ROUND[i + 1]));
        round!(g h a b c d e f, words[i + 2].wrapping_add(ROUND[i + 2]));
        round!(f g h a b c d e, words[i + 3].wrapping_add(ROUND[i + 3]));
        round!(e f g h a b c d, words[i + 4].wrapping_add(ROUND[i + 4]));
        round!(d e f g h a b c, words[i + 5].wrapping_add(ROUND[i + 5]));
        round!(c d e f g h a b, words[i + 6].wrapping_add(ROUND[i + 6]));
        round!(b c d e f g h a, words[i + 7].wrapping_add(ROUND[i + 7]));
    }
    for (word, change) in state.iter_mut().zip([a, b, c, d, e, f, g, h]) {
        *word = word.wrapping_add(change);
    }
}

/// Returns the digest of a text as 64 hexadecimal digits.
pub fn hex_digest(text: &[u8]) -> String {
    let mut state = START;
    let (blocks, rest) = text.as_chunks::<64>();
    for block in blocks {
        compress(&mut state, block);
    }
    let mut tail = rest.to_vec();
    tail.push(0x80);
    while tail.len() % 64 != 56 {
        tail.push(0);
    }
    tail.extend((text.len() as u64 * 8).to_be_bytes());
    for block in tail.as_chunks::<64>().0 {
        compress(&mut state, block);
    }
    state.iter().map(|word| format!("{word:08x}")).collect()
}
