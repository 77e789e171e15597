//! 02, point 7: how many NACK attempts a dynamic delay leaves time for, in whole numbers. It takes the place of the original's logarithm.

/// The least n from 1 to the most attempts with k^n at most (10,000 − t) · 10,000^(n − 1), or the most attempts if none fits.
pub fn attempts(loss: f32, target: u64, most: u32) -> u32 {
    let k = u128::from(loss_in_ten_thousandths(loss));
    let whole = 10_000u128;
    (1..=most)
        .find(|n| k.pow(*n) <= (whole - u128::from(target)) * whole.pow(n - 1))
        .unwrap_or(most)
}

/// The least whole number from 10 to 9,900 not below 10,000 times the loss, the product taken exactly, or 9,900 if there is none.
fn loss_in_ten_thousandths(loss: f32) -> u64 {
    (10..=9_900).find(|k| !below(*k, loss)).unwrap_or(9_900)
}

/// Whether k is below 10,000 times the loss: k · 2^149 below 10,000 · m · 2^(e + 149), m · 2^e being the f32, which is not negative. An f32
/// under 2 has m under 2^24 and e from −149 to −23, so the products are at most 10,000 · 2^150.
fn below(k: u64, loss: f32) -> bool {
    let bits = loss.to_bits();
    let (exponent, fraction) = (bits >> 23, bits & 0x7f_ffff);
    assert!(exponent <= 127, "a loss is from 0 to 1");
    // a number and how many zero bits follow it
    let (m, zeros) = match exponent {
        0 => (fraction, 0),
        _ => (fraction | 0x80_0000, exponent - 1),
    };
    let product = 10_000 * u128::from(m);
    // k · 2^149 < product · 2^zeros, both divided by 2^zeros: the left in whole numbers only where 149 − zeros bits leave room
    let shift = 149 - zeros;
    if shift > 100 {
        return false; // k is at least 10, and product under 2^38
    }
    u128::from(k) << shift < product
}
