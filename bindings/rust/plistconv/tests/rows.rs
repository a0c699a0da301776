//! Compares the library with `bindings/rows.txt`, which every binding does, and the refusals with the library's source.
use plistconv::{Place, Refusal, Refused, Verdict};
use std::path::Path;

fn read(path: &str) -> String {
    let path = Path::new(env!("CARGO_MANIFEST_DIR")).join(path);
    std::fs::read_to_string(&path).unwrap_or_else(|error| panic!("{}: {error}", path.display()))
}

fn decoded(cell: &str) -> Vec<u8> {
    let digits = cell.trim_matches('-');
    (0..digits.len())
        .step_by(2)
        .map(|at| u8::from_str_radix(&digits[at..at + 2], 16).unwrap())
        .collect()
}

fn encoded(octets: impl AsRef<[u8]>) -> String {
    octets
        .as_ref()
        .iter()
        .map(|octet| format!("{octet:02x}"))
        .collect()
}

fn refusal(refused: Refused) -> String {
    let place = match refused.place() {
        None => "none/0".to_string(),
        Some(Place::Object(number)) => format!("object/{number}"),
        Some(Place::Octet(offset)) => format!("octet/{offset}"),
        Some(_) => unreachable!(),
    };
    format!("{}/{place}", u8::from(refused.refusal()))
}

fn output(answer: Result<impl AsRef<[u8]>, Refused>) -> String {
    answer.map_or_else(refusal, encoded)
}

fn verdict(answer: Result<Verdict, Refused>) -> String {
    match answer {
        Ok(Verdict::Canonical) => "canonical".to_string(),
        Ok(Verdict::Broken { rule, object }) => format!("C{rule}/{object}"),
        Err(refused) => refusal(refused),
    }
}

#[test]
fn rows() {
    let text = read("../../rows.txt");
    let rows: Vec<Vec<&str>> = text
        .lines()
        .filter(|line| !line.starts_with('#'))
        .map(|line| line.split(' ').collect())
        .collect();
    assert!(rows.len() > 50);
    for row in rows {
        let octets = decoded(row[1]);
        let canonical = plistconv::canonicalise(&octets);
        assert_eq!(
            output(canonical.as_ref().map_err(|refused| *refused)),
            row[2],
            "{}: canonical file",
            row[0]
        );
        assert_eq!(
            output(plistconv::to_openstep(&octets)),
            row[3],
            "{}: OpenStep text",
            row[0]
        );
        assert_eq!(
            output(plistconv::print(&octets)),
            row[4],
            "{}: printed text",
            row[0]
        );
        assert_eq!(
            verdict(plistconv::check(&octets)),
            row[5],
            "{}: check",
            row[0]
        );
        assert_eq!(
            plistconv::lint(&octets).err(),
            canonical.as_ref().err().copied(),
            "{}: lint",
            row[0]
        );
        assert_eq!(
            plistconv::same(&octets, canonical.as_ref().unwrap_or(&octets)).ok(),
            canonical.ok().map(|_| true)
        );
    }
}

/// Returns the name as that of a constant: `TOO_SHORT` for `TooShort`.
fn constant(name: &str) -> String {
    let words = name.chars().enumerate().flat_map(|(at, letter)| {
        let dash = (at > 0 && letter.is_uppercase()).then_some('_');
        dash.into_iter().chain(letter.to_uppercase())
    });
    words.collect()
}

#[test]
fn refusals() {
    let source = read("../../../crates/plist_value/src/refusals.rt");
    let wanted: Vec<(u8, String)> = source
        .lines()
        .filter_map(|line| {
            line.strip_prefix("    ")?
                .strip_suffix(',')?
                .split_once(" = ")
        })
        .filter_map(|(name, number)| Some((number.parse().ok()?, name.to_string())))
        .collect();
    let ours: Vec<(u8, String)> = (0..=u8::MAX)
        .filter_map(|number| Some((number, Refusal::try_from(number).ok()?)))
        .inspect(|&(number, refusal)| assert_eq!(u8::from(refusal), number))
        .map(|(number, refusal)| (number, refusal.name().to_string()))
        .collect();
    assert_eq!(ours, wanted);
    assert_eq!(ours.len(), 35);
    let constants = read("../plistconv-sys/src/lib.rs");
    for (number, name) in wanted {
        let line = format!("pub const {}: u8 = {number};\n", constant(&name));
        assert!(constants.contains(&line), "{line}");
    }
}

#[test]
fn depth() {
    let deep = [vec![b'('; 512], vec![b')'; 512]].concat();
    let deeper = [vec![b'('; 513], vec![b')'; 513]].concat();
    // (the stack of a thread of `std`)
    let thread = std::thread::spawn(move || (plistconv::lint(&deep), plistconv::lint(&deeper)));
    let (deepest, refused) = thread.join().unwrap();
    assert_eq!(deepest, Ok(()));
    assert_eq!(refused.unwrap_err().refusal(), Refusal::TooDeep);
}

#[test]
fn errors() {
    let error: Box<dyn std::error::Error + Send + Sync> =
        plistconv::canonicalise(b"bplist00").unwrap_err().into();
    assert_eq!(error.to_string(), "1 TooShort");
    let uid = decoded(
        "62706c6973743030800508000000000000010100000000000000010000000000000000000000000000000a",
    );
    assert_eq!(
        plistconv::lint(&uid).unwrap_err().to_string(),
        "9 UidObject at object 0"
    );
    assert_eq!(plistconv::library_version(), env!("CARGO_PKG_VERSION"));
}
