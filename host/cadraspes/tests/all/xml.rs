//! A small checker of XML: what stands wrong in a document, if anything does.
//! It knows elements, attributes and references, and takes nothing else.

/// The texts between the tags, in order, each with the path to it; or what is
/// wrong.
pub fn texts(document: &str) -> Result<Vec<(String, String)>, String> {
    let (mut open, mut roots, mut texts) = (Vec::<String>::new(), 0, Vec::new());
    let mut rest = document;
    while let Some(start) = rest.find('<') {
        let text = plain(&rest[..start])?;
        match (text.trim().is_empty(), open.is_empty()) {
            (true, _) => (),
            (false, true) => return Err(format!("text outside the root: {text}")),
            (false, false) => texts.push((open.join("/"), text)),
        }
        let end = rest.find('>').ok_or("a tag does not end")?;
        let tag = rest.get(start + 1..end).ok_or("> before <")?;
        roots += usize::from(open.is_empty());
        step(&mut open, tag)?;
        rest = &rest[end + 1..];
    }
    match (open.last(), roots, rest.trim()) {
        (None, 1, "") => Ok(texts),
        (Some(name), ..) => Err(format!("{name} is left open")),
        _ => Err(format!("{roots} roots, {rest:?} left over")),
    }
}

/// A tag: opens, closes, or both.
fn step(open: &mut Vec<String>, tag: &str) -> Result<(), String> {
    if let Some(name) = tag.strip_prefix('/') {
        return match open.pop() {
            Some(last) if last == name => Ok(()),
            last => Err(format!("{name} closes {last:?}")),
        };
    }
    let (inner, closed) = tag.strip_suffix('/').map_or((tag, false), |inner| (inner, true));
    let (name, attributes) = inner.split_once(' ').unwrap_or((inner, ""));
    if name.is_empty() || !name.chars().all(|letter| letter.is_ascii_alphanumeric()) {
        return Err(format!("{name:?} is no name"));
    }
    check_attributes(attributes)?;
    if !closed {
        open.push(name.to_string());
    }
    Ok(())
}

/// `name="value"`, a space between two, no name twice.
fn check_attributes(attributes: &str) -> Result<(), String> {
    let (mut rest, mut names) = (attributes, Vec::new());
    while !rest.is_empty() {
        let (name, after) = rest.split_once("=\"").ok_or(format!("no value: {rest}"))?;
        let (value, after) = after.split_once('"').ok_or(format!("no end: {rest}"))?;
        plain(value)?;
        let known = names.contains(&name) || name.is_empty();
        if known || !name.chars().all(|letter| letter.is_ascii_alphanumeric() || letter == '-') {
            return Err(format!("{name:?} is no name, or there twice"));
        }
        names.push(name);
        rest = match after.strip_prefix(' ') {
            Some(next) if !next.is_empty() => next,
            _ if after.is_empty() => after,
            _ => return Err(format!("no space before {after}")),
        };
    }
    Ok(())
}

/// Text with its references read.
fn plain(text: &str) -> Result<String, String> {
    let mut parts = text.split('&');
    let mut all = parts.next().unwrap_or("").to_string();
    for part in parts {
        let (name, after) = part.split_once(';').ok_or(format!("a bare & before {part}"))?;
        let known = [("amp", '&'), ("lt", '<'), ("gt", '>'), ("quot", '"'), ("apos", '\'')];
        let letter = known.iter().find(|(known, _)| *known == name).ok_or(format!("&{name}; is unknown"))?.1;
        all.push(letter);
        all += after;
    }
    match all.chars().find(|letter| letter.is_control() && *letter != '\n') {
        Some(letter) => Err(format!("{letter:?} may not stand in a document")),
        None => Ok(all),
    }
}

#[test]
fn documents_that_are_wrong() {
    assert_eq!(texts("<a>\n<b c=\"1\" d=\"2\"/>x &lt; y</a>\n").unwrap(), [("a".to_string(), "x < y".to_string())]);
    for wrong in [
        "",
        "<a>",
        "<a></b>",
        "<a/><b/>",
        "<a/>x",
        "x<a/>",
        "<a>x & y</a>",
        "<a>&no;</a>",
        "<a b=1/>",
        "<a b=\"1/>",
        "<a b=\"1\"c=\"2\"/>",
        "<a b=\"1\" b=\"2\"/>",
        "<a b=\"&\"/>",
        "<>x</>",
        "<a>\u{1}</a>",
        "<a><b></a></b>",
        "<a b=\"1\" />x",
        "<a>1 > 0</a>",
    ] {
        assert!(texts(wrong).is_err(), "{wrong:?} is taken");
    }
}
