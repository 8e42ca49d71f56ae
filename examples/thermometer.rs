//! One thermometer from Rust: `thermometer COUNT` prints the temperature of a count under the bench table's
//! coefficients, PAM 20,000 and offset 0.

extern "C" {
    fn sounder_thermometer(
        r_pam: u32,
        r0: u32,
        alpha: u32,
        delta: u32,
        beta: u32,
        pam: u16,
        offset: u16,
        count: u16,
        t: *mut i32,
    ) -> u8;
}

/// The temperature in units of 1/4096 °C, or the number of the refusal.
fn thermometer(count: u16) -> Result<i32, u8> {
    let mut t = 0;
    // SAFETY: t points at an i32 that nothing else uses during the call.
    let refused = unsafe {
        sounder_thermometer(
            2_000_000, 2_000_000, 3_850_000, 1_500_000, 0, 20_000, 0, count, &mut t,
        )
    };
    if refused == 0 {
        Ok(t)
    } else {
        Err(refused)
    }
}

fn main() {
    let argument = std::env::args().nth(1);
    let Some(count) = argument.and_then(|text| text.parse().ok()) else {
        eprintln!("usage: thermometer COUNT");
        std::process::exit(2);
    };
    match thermometer(count) {
        Ok(t) => println!("{t} units, {:.4} degrees Celsius", f64::from(t) / 4096.0),
        Err(refused) => println!("refused {refused}"),
    }
}
