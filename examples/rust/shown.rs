//! A value as the program `sheet` prints it.

/// The nearest hundredth of the exact value, halves away from zero; `*` where that reaches 10^12.
pub fn shown(value: f64) -> String {
    if value.abs() >= 1e12 {
        return String::from("*");
    }
    // below 10^12 the exponent is so small that hundredths are a shift to the right
    let exponent = (value.to_bits() >> 52) & 0x7ff;
    let fraction = value.to_bits() & ((1 << 52) - 1);
    let mantissa = if exponent > 0 { fraction | 1 << 52 } else { fraction };
    let shift = 1075 - exponent.max(1);
    let hundredths = if shift < 64 { (((mantissa * 200) >> shift) + 1) >> 1 } else { 0 };
    if hundredths >= 100_000_000_000_000 {
        return String::from("*");
    }
    let sign = if value < 0.0 && hundredths > 0 { "-" } else { "" };
    format!("{sign}{}.{:02}", hundredths / 100, hundredths % 100)
}
