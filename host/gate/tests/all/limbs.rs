//! tools/limbs: no text outside crates/amount looks into an amount.
use crate::folder::Folder;

/// Whether the tool lets a text of another crate pass.
fn passes(name: &str, text: &str) -> bool {
    let folder = Folder::new(name);
    folder.write("crates/amount/specs/Value.antt", "unfolding value\n");
    folder.write("crates/other/proofs/Laws.antt", text);
    folder.tool("limbs").output().expect("bash").status.success()
}

#[test]
fn a_text_that_cites_promises_passes() {
    assert!(passes("promises", "law : Worth n a\nunfolding Worth\n  meant\nlaw = value a\n"));
}

#[test]
fn a_limb_is_found() {
    assert!(!passes("limb", "law = a .limb0\n"));
}

#[test]
fn what_an_amount_is_worth_stays_shut() {
    assert!(!passes("same-line", "unfolding Worth value\nlaw = refl\n"));
    assert!(!passes("next-line", "unfolding Worth\n  from_words\nlaw = refl\n"));
    assert!(!passes("earlier-name", "unfolding Worth\n  fromWords\nlaw = refl\n"));
    assert!(!passes("path", "unfolding Rattle.amount.specs.Value.from_words\nlaw = refl\n"));
    assert!(!passes("list-below", "unfolding\n  Worth value\nlaw = refl\n"));
    assert!(!passes("term", "law = unfold Worth value in refl\n"));
    assert!(!passes("middle", "unfolding Worth\n  meant\n  value reading\nlaw = refl\nunfolding Worth\nnext = refl\n"));
}

#[test]
fn an_attribute_that_opens_it_is_found() {
    assert!(!passes("attribute", "#[tactic(auto, using(a::b), unfolding(amount::specs::Value::value))]\nfn f() {}\n"));
    assert!(!passes(
        "attribute-below",
        "#[tactic(auto, unfolding(\n    crate::specs::Other,\n    value))]\nfn f() {}\n"
    ));
    assert!(passes("attribute-of-others", "#[tactic(auto, unfolding(amount::specs::Value::Worth))]\nfn value() {}\n"));
}

#[test]
fn another_name_for_it_is_found() {
    assert!(!passes("renamed", "use Rattle.amount.specs.Value.{value as worth}\nlaw = refl\n"));
    assert!(!passes(
        "renamed-behind-a-comment",
        "use Rattle.amount.specs.Value.{value -- its worth\n  as worth}\nlaw = refl\n"
    ));
    assert!(!passes(
        "renamed-later",
        "use Rattle.amount.specs.Value.{\n  Worth,\n  value\n    as worth}\nlaw = refl\n"
    ));
}
