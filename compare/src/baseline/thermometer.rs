//! Thermometer rule, and the operation One thermometer.

const LOWEST: i64 = -245_760;
const HIGHEST: i64 = 245_760;
const ONE: i64 = 16_777_216;

/// F(t), every division a floor.
#[inline(always)]
fn ratio(alpha: i64, delta: i64, beta: i64, t: i64) -> i64 {
    let q = t * (t - 409_600);
    let s1 = (delta * q).div_euclid(160_000_000_000);
    // The fourth-degree term counts below 0 °C only.
    let s2 = if t < 0 {
        let y = q.div_euclid(10_000);
        let w = (t * t).div_euclid(10_000);
        let h = (y * w).div_euclid(ONE);
        (beta * h).div_euclid(16_000_000)
    } else {
        0
    };
    ONE + (alpha * (256 * t - s1 - s2)).div_euclid(62_500_000)
}

/// One thermometer: t, or the number of the refusal.
#[allow(clippy::too_many_arguments)]
pub fn thermometer(
    r_pam: u32,
    r0: u32,
    alpha: u32,
    delta: u32,
    beta: u32,
    pam: u16,
    offset: u16,
    count: u16,
) -> Result<i32, u8> {
    let resistances = 1_000..=4_000_000;
    let inside = resistances.contains(&r_pam)
        && resistances.contains(&r0)
        && (3_000_000..=5_000_000).contains(&alpha)
        && delta <= 2_000_000
        && beta <= 500_000;
    if !inside {
        return Err(8);
    }
    if pam <= offset {
        return Err(9);
    }
    if count < offset {
        return Err(10);
    }
    let (alpha, delta, beta) = (alpha as i64, delta as i64, beta as i64);
    let above = r_pam as i64 * (count - offset) as i64 * ONE;
    let m = above / ((pam - offset) as i64 * r0 as i64);
    if m < ratio(alpha, delta, beta, LOWEST) || m > ratio(alpha, delta, beta, HIGHEST) {
        return Err(10);
    }
    let (mut reached, mut past) = (LOWEST, HIGHEST + 1);
    while past - reached > 1 {
        let middle = reached + (past - reached) / 2;
        if ratio(alpha, delta, beta, middle) <= m {
            reached = middle;
        } else {
            past = middle;
        }
    }
    Ok(reached as i32)
}

#[cfg(test)]
mod tests {
    use super::*;
    use crate::against;
    use crate::check::counters::Counters;

    #[test]
    fn the_thermometer_agrees_with_the_second_implementation() {
        for seed in 0..20_000 {
            let other = |i: &crate::generator::thermometers::ThermometerInput| {
                thermometer(
                    i.pam_resistance,
                    i.resistance,
                    i.alpha,
                    i.delta,
                    i.beta,
                    i.pam,
                    i.offset,
                    i.count,
                )
            };
            against::thermometer(seed, other, &mut Counters::new()).unwrap();
        }
    }
}
