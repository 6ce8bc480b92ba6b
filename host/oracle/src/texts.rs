//! Amount texts around every line that a reader of amounts can trip over: what
//! crates/amounts is run on.

/// 2^128, which no `u128` holds, and what lies up to 543 above it.
fn over(k: u32) -> String {
    format!("340282366920938463463374607431768211{}", 456 + k)
}

fn bytes_and_signs(t: &mut Vec<Vec<u8>>) {
    for s in [
        "", "+", "-", "++", "--", "+-", "-+", "0", "+0", "-0", "00", "+00", "007", "+7", "+007", "-1", "-7", "10",
        "+10",
    ] {
        t.push(s.into());
    }
    for s in [
        "1+", "1+1", "+1+", "++1", "+-1", "-+1", "+ 1", "1-", "1-1", " ", " 1", "1 ", "1 2", "\t1", "1\t", "\r", "1\r",
        "\r1", "+\r", "1\r\r", "\u{b}1", "1\u{c}",
    ] {
        t.push(s.into());
    }
    for s in [
        "1_000", "_1", "1_", "0x", "0x10", "0X1F", "0b1", "0o7", "ff", "1e3", "1.0", "1.", ".1", "1,000", "1'000",
        "NaN", "inf", "1u128", "1n", "\"1\"",
    ] {
        t.push(s.into());
    }
    for s in [
        "\0",
        "1\0",
        "\x001",
        "+\0",
        "\u{663}",
        "\u{ff11}",
        "\u{2212}1",
        "\u{ff0b}1",
        "\u{bd}",
        "1\u{e9}",
        "\u{feff}1",
        "1\u{a0}",
    ] {
        t.push(s.into());
    }
    for b in (0..=255u8).filter(|&b| b != b'\n') {
        t.extend([vec![b], vec![b, b'7'], vec![b'7', b], vec![b'+', b], vec![b'+', b'7', b]]);
    }
}

fn lengths(t: &mut Vec<Vec<u8>>) {
    for k in 1..=45 {
        t.extend(["9", "1", "0"].map(|d| d.repeat(k).into_bytes()));
        t.push(format!("1{}", "0".repeat(k)).into());
    }
    let most = u128::MAX.to_string();
    for k in [1, 2, 10, 37, 38, 39, 40, 100, 3000] {
        let zeros = "0".repeat(k);
        t.push(format!("{zeros}7").into());
        t.push(format!("+{zeros}7").into());
        t.push(format!("{zeros}{most}").into());
        t.push(format!("{zeros}{}", over(0)).into());
        t.push(format!("{zeros}+7").into());
    }
    for s in [
        "9".repeat(200),
        "1".repeat(3000),
        "0".repeat(4000),
        format!("{}x", "9".repeat(100)),
        format!("{}+", "1".repeat(100)),
    ] {
        t.push(s.into());
    }
    for s in ["+", "-", "0", "++", " "] {
        t.push(format!("{s}{most}").into());
    }
    for s in ["0", "+", " ", "\r", "x", "\0"] {
        t.push(format!("{most}{s}").into());
    }
}

fn values(t: &mut Vec<Vec<u8>>) {
    let mut put = |n: u128| t.push(n.to_string().into());
    for e in 0..128 {
        let n = 1u128 << e;
        for n in [n - 1, n, n + 1] {
            put(n);
        }
    }
    let word = u64::MAX as u128;
    let words = [0, 1, 9, 10, word / 10 - 1, word / 10, word / 10 + 1, word / 2, word / 2 + 1, word - 1, word];
    for y in words {
        for x in words {
            put(y << 64 | x);
        }
    }
    let mut n: u128 = 1;
    for _ in 0..60 {
        n = n
            .wrapping_mul(0x2360_ed05_1fc6_5da4_4385_df64_9fcc_f645)
            .wrapping_add(0x5851_f42d_4c95_7f2d_1405_7b7e_f767_814f);
        put(n >> (n % 113));
    }
    // where one digit more fits or does not
    for front in [u128::MAX / 10 - 1, u128::MAX / 10, u128::MAX / 10 + 1, word / 10, u32::MAX as u128 / 10] {
        t.extend((0..10).map(|d| format!("{front}{d}").into()));
    }
    t.extend((0..20).map(|k| (u128::MAX - k).to_string().into()));
    t.extend((0..20).map(|k| over(k).into()));
}

/// The texts, one a line and the last without a newline.
pub fn texts() -> Vec<u8> {
    let mut t = Vec::new();
    bytes_and_signs(&mut t);
    lengths(&mut t);
    values(&mut t);
    t.push("18446744073709551616".into());
    t.join(&b'\n')
}
