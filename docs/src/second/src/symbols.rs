//! Table B-1 of source 004 as it is printed there; inverses and products by the table's powers.

const TABLE: &str = include_str!("../table_b1.txt");

pub fn rows() -> Vec<(String, u8, u8)> {
    TABLE
        .lines()
        .map(|line| {
            let f: Vec<&str> = line.split(' ').collect();
            (f[0].to_string(), u8::from_str_radix(f[1], 2).unwrap(), u8::from_str_radix(f[2], 2).unwrap())
        })
        .collect()
}

pub fn write_all() {
    let rows = rows();
    for (power, element, line) in &rows {
        println!("power {power} {element:02x} {line:02x} {element:02x}");
    }
    // A product is a sum of powers, an inverse a difference.
    let element = |power: usize| rows[1 + power % 255].1;
    let power = |e: u8| rows[1..].iter().position(|r| r.1 == e);
    let product = |a: u8, b: u8| match (power(a), power(b)) {
        (Some(p), Some(q)) => element(p + q),
        _ => 0,
    };
    for a in 0..=255u8 {
        let inverse = power(a).map_or(0, |p| element(255 - p));
        println!("inverse {a:02x} {inverse:02x} {:02x} {:02x}", product(a, inverse), product(inverse, 0xFF));
    }
}
