/// Every unit in millimetres. Long because there are many units, and accepted: a table would hide none of it.
pub fn millimetres(unit: &str) -> Option<f64> {
    Some(match unit {
        "mm" => 1.0,
        "cm" => 10.0,
        "dm" => 100.0,
        "m" => 1e3,
        "km" => 1e6,
        "in" => 25.4,
        "ft" => 304.8,
        "yd" => 914.4,
        "mi" => 1_609_344.0,
        "pt" => 25.4 / 72.0,
        "pc" => 25.4 / 6.0,
        "thou" => 0.0254,
        "fathom" => 1828.8,
        "chain" => 20_116.8,
        "nmi" => 1_852_000.0,
        _ => return None,
    })
}

pub fn convert(value: f64, from: &str, to: &str) -> Option<f64> {
    Some(value * millimetres(from)? / millimetres(to)?)
}

pub fn is_metric(unit: &str) -> bool {
    unit == "m" || unit.ends_with('m') && unit.len() == 2
}
