//! XML files of the machine, or those named: as they are, and with their DOCTYPE taken out if they have one.

use super::*;
use std::fs;
use std::path::Path;

const ROOTS: &[&str] = &["/usr/share", "/usr/lib", "/etc", "/usr/local", "/opt"];
const ENDINGS: &[&str] =
    &["xml", "svg", "xsl", "xslt", "xsd", "xhtml", "html", "rng", "rdf", "plist", "ui", "dtd", "conf", "gir", "page", "metainfo"];
const LARGEST: u64 = 4 << 20;

/// Up to so many files with an ending of XML.
pub fn found(amount: Amount) -> Vec<PathBuf> {
    let mut paths = Vec::new();
    ROOTS.iter().for_each(|root| look(Path::new(root), &mut paths));
    paths.sort();
    paths.truncate(amount.of(60, 20_000));
    paths
}

fn look(folder: &Path, paths: &mut Vec<PathBuf>) {
    let Ok(entries) = fs::read_dir(folder) else { return };
    for entry in entries.flatten() {
        let path = entry.path();
        match entry.file_type() {
            Ok(kind) if kind.is_dir() => look(&path, paths),
            Ok(kind) if kind.is_file() && fits(&path) => paths.push(path),
            _ => {}
        }
    }
}

fn fits(path: &Path) -> bool {
    let ending = path.extension().and_then(|e| e.to_str()).unwrap_or_default();
    ENDINGS.contains(&ending) && fs::File::open(path).and_then(|file| file.metadata()).is_ok_and(|m| m.len() <= LARGEST)
}

/// A job for each file.
pub fn families(paths: Vec<PathBuf>) -> Vec<Family> {
    let again = paths.clone();
    let plain = Family::new("files", paths.len(), move |job, sink| match fs::read(&paths[job]) {
        Ok(document) => sink.each(&document, &several(), 512),
        Err(error) => panic!("{}: {error}", paths[job].display()),
    });
    let without = Family::new("files with their DOCTYPE taken out", again.len(), move |job, sink| {
        match fs::read(&again[job]).ok().and_then(|document| without_doctype(&document)) {
            Some(document) => sink.each(&document, &several(), 512),
            None => ON,
        }
    });
    vec![plain, without]
}

/// The document with its first DOCTYPE taken out, up to the `>` outside quotes and brackets.
pub fn without_doctype(document: &[u8]) -> Option<Vec<u8>> {
    let opens = |w: &[u8]| w.eq_ignore_ascii_case(b"<!doctype");
    let from = document.windows(9).position(opens)?;
    let (mut quote, mut depth) = (0, 0);
    let closes = |&b: &u8| {
        match b {
            b'\'' | b'"' if quote == 0 => quote = b,
            _ if quote != 0 => quote = if b == quote { 0 } else { quote },
            b'[' => depth += 1,
            b']' => depth -= 1,
            _ => {}
        }
        b == b'>' && quote == 0 && depth <= 0
    };
    let length = document[from..].iter().position(closes)? + 1;
    Some([&document[..from], &document[from + length..]].concat())
}
