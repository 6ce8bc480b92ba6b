//! What Rust's own reader says of amount texts.
use oracle::amounts::amounts;
use std::path::Path;

#[test]
fn texts_one_a_line() {
    let texts = b"\n+7\n007\n-0\n+\n7 \n\xff\n340282366920938463463374607431768211455\n340282366920938463463374607431768211456\n0";
    assert_eq!(amounts(texts), "?\n0x7\n0x7\n?\n?\n?\n?\n0xffffffffffffffffffffffffffffffff\n?\n0x0\n");
    assert_eq!(amounts(b""), "");
}

/// What the crate `amounts` is run on, and what it must write.
#[test]
fn the_texts_of_the_amounts_crate() {
    let folder = Path::new(env!("CARGO_MANIFEST_DIR")).join("../../crates/amounts");
    let texts = std::fs::read(folder.join("stdin")).expect("crates/amounts lies beside host/");
    assert!(texts == oracle::texts::texts(), "crates/amounts/stdin is not what `oracle texts` writes");
    assert_eq!(amounts(&texts), std::fs::read_to_string(folder.join("stdout")).unwrap());
}

/// The reading of document 01 reads every text as Rust's own reader does.
#[test]
fn the_reading_agrees() {
    let digits = ["", "0", "7", "00", "9", "x", "-", "+", " ", ".", "_", "é"];
    for a in digits {
        for b in digits {
            for c in ["", "340282366920938463463374607431768211455", "340282366920938463463374607431768211456"] {
                let text = format!("{a}{b}{c}");
                assert_eq!(reading::read_amount(&text), text.parse().ok(), "{text:?}");
            }
        }
    }
}
