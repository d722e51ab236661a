//! Folders in the layout of the published Variant test files: `NAME.metadata`, `NAME.value`, and
//! beside them, where someone wrote it, `NAME.txt` with what the document means.

use crate::bytes::from_hex;
use crate::doc::{Bytes, Doc};
use crate::limits;
use crate::operations::{check, document, normalised, rebuilt, shredded};
use crate::schema::{is_column_type, Node};
use crate::text::text;
use crate::value::{STRING, TRUE};
use std::fs;
use std::path::{Path, PathBuf};

/// What is under one name.
struct Entry {
    name: String,
    metadata: Vec<u8>,
    value: Vec<u8>,
    meaning: Option<String>,
}

/// Runs a folder; false where a file fails.
pub fn run(dir: &Path) -> Result<bool, String> {
    let names = names_in(dir)?;
    let (mut failed, mut compared) = (0, 0);
    for name in &names {
        let entry = read_entry(dir, name)?;
        compared += usize::from(entry.meaning.is_some());
        if let Err(fault) = judge(&entry) {
            failed += 1;
            println!("{}: {fault}", entry.name);
        }
    }
    println!("{} documents, {compared} compared with their text, {failed} failed", names.len());
    Ok(failed == 0 && !names.is_empty())
}

/// Makes the files of a list; each line is `name | metadata | value | meaning`, `#` a remark.
pub fn make(list: &Path, dir: &Path) -> Result<bool, String> {
    let text = fs::read_to_string(list).map_err(|error| told(list, error))?;
    for line in text.lines().filter(|line| !line.trim().is_empty() && !line.starts_with('#')) {
        let entry = parse_line(line).ok_or_else(|| format!("bad line: {line:.60}"))?;
        write(&dir.join(format!("{}.metadata", entry.name)), &entry.metadata)?;
        write(&dir.join(format!("{}.value", entry.name)), &entry.value)?;
        let meaning = entry.meaning.unwrap_or_default() + "\n";
        write(&dir.join(format!("{}.txt", entry.name)), meaning.as_bytes())?;
    }
    Ok(true)
}

fn parse_line(line: &str) -> Option<Entry> {
    let mut parts = line.splitn(4, " | ").map(str::trim);
    let name = parts.next()?.to_string();
    let mut bytes = || from_hex(&parts.next()?.replace(' ', ""));
    let (metadata, value) = (bytes()?, bytes()?);
    Some(Entry { name, metadata, value, meaning: Some(parts.next()?.to_string()) })
}

/// Accepted, normal form stable, rows stable, and meaning what its text says.
fn judge(entry: &Entry) -> Result<(), String> {
    let refused = |refusal| format!("refused: {refusal:?}");
    check(&entry.metadata, &entry.value).map_err(refused)?;
    let doc = document(&entry.metadata, &entry.value).map_err(refused)?;
    let found = text(&doc);
    if entry.meaning.as_ref().is_some_and(|meaning| *meaning != found) {
        return Err(format!("means {found}"));
    }
    let made = normalised(&entry.metadata, &entry.value).map_err(refused)?;
    if normalised(&made.metadata, &made.value).as_ref() != Ok(&made) {
        return Err("its normal form is not stable".to_string());
    }
    for schema in schemas_of(&doc) {
        let schema = schema.as_slice();
        let row = shredded(schema, &entry.metadata, &entry.value).map_err(refused)?;
        if rebuilt(schema, &row).as_ref() != Ok(&made) {
            return Err("a row of it does not rebuild".to_string());
        }
    }
    Ok(())
}

/// Leftover only; and, where it fits a schema's limits, a schema that types what it can.
fn schemas_of(doc: &Doc) -> Vec<Vec<u8>> {
    let mut schemas = vec![Vec::new(), Vec::new()];
    Node::Leftover.write(&mut schemas[0]);
    fitting(doc, 1).write(&mut schemas[1]);
    schemas.retain(|schema| schema.len() <= limits::SCHEMA);
    schemas
}

/// A node that types a document; the first element of an array stands for all, and the first
/// fields of an object, so that most schemas stay within their limit.
fn fitting(doc: &Doc, level: usize) -> Node<'static> {
    match doc {
        Doc::Bool(_) => Node::Primitive(TRUE),
        Doc::Text(_) => Node::Primitive(STRING),
        Doc::Payload(kind, _) if is_column_type(*kind) => Node::Primitive(*kind),
        Doc::Array(items) if !items.is_empty() => {
            Node::List(Box::new(fitting(&items[0], level + 1)))
        }
        Doc::Object(fields) if !fields.is_empty() => {
            let most = if level < 4 { 8 } else { 1 };
            let first = fields.iter().take(most);
            let field =
                |(name, item): &(Bytes, Doc)| (name.to_vec().into(), fitting(item, level + 1));
            Node::Object(first.map(field).collect())
        }
        _ => Node::Leftover,
    }
}

/// The names in a folder that have a value, in order.
fn names_in(dir: &Path) -> Result<Vec<String>, String> {
    let mut names = Vec::new();
    for entry in fs::read_dir(dir).map_err(|error| told(dir, error))? {
        let path = entry.map_err(|error| told(dir, error))?.path();
        if path.extension().is_some_and(|extension| extension == "value") {
            names.extend(path.file_stem().map(|stem| stem.to_string_lossy().into_owned()));
        }
    }
    names.sort();
    Ok(names)
}

fn read_entry(dir: &Path, name: &str) -> Result<Entry, String> {
    let file = |extension: &str| -> PathBuf { dir.join(format!("{name}.{extension}")) };
    let meaning = match file("txt") {
        path if path.exists() => {
            let text = fs::read_to_string(&path).map_err(|error| told(&path, error))?;
            Some(text.trim_end_matches('\n').to_string())
        }
        _ => None,
    };
    let read = |path: PathBuf| fs::read(&path).map_err(|error| told(&path, error));
    let (metadata, value) = (read(file("metadata"))?, read(file("value"))?);
    Ok(Entry { name: name.to_string(), metadata, value, meaning })
}

fn write(path: &Path, bytes: &[u8]) -> Result<(), String> {
    fs::write(path, bytes).map_err(|error| told(path, error))
}

fn told(path: &Path, error: std::io::Error) -> String {
    format!("{}: {error}", path.display())
}
