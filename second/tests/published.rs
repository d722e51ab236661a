//! The folder of documents in the published layout, and the runner's own judgement.

use second::published::{make, run};
use std::fs;
use std::path::{Path, PathBuf};

fn published() -> PathBuf {
    Path::new(env!("CARGO_MANIFEST_DIR")).join("../published")
}

/// A fresh folder for one test.
fn fresh(name: &str) -> PathBuf {
    let dir = std::env::temp_dir().join(format!("second-{name}-{}", std::process::id()));
    fs::create_dir_all(&dir).unwrap();
    dir
}

/// Runs a folder of one document.
fn one(name: &str, metadata: &[u8], value: &[u8], text: Option<&str>) -> bool {
    let dir = fresh(name);
    fs::write(dir.join("lot.metadata"), metadata).unwrap();
    fs::write(dir.join("lot.value"), value).unwrap();
    text.iter().for_each(|text| fs::write(dir.join("lot.txt"), text).unwrap());
    let passed = run(&dir).unwrap();
    fs::remove_dir_all(&dir).unwrap();
    passed
}

#[test]
fn every_document_passes() {
    assert_eq!(run(&published()), Ok(true));
}

#[test]
fn the_files_are_those_of_the_list() {
    let dir = fresh("list");
    make(&published().join("sources.txt"), &dir).unwrap();
    let mut files = 0;
    for entry in fs::read_dir(&dir).unwrap() {
        let path = entry.unwrap().path();
        let kept = published().join(path.file_name().unwrap());
        assert_eq!(fs::read(&path).unwrap(), fs::read(&kept).unwrap(), "{}", kept.display());
        files += 1;
    }
    fs::remove_dir_all(&dir).unwrap();
    let kept = fs::read_dir(published()).unwrap().count();
    assert_eq!(files, kept - 2, "all but the list and its page");
}

#[test]
fn a_document_may_fail() {
    assert!(one("good", &[1, 0, 0], &[0x0C, 42], Some("int8 42\n")));
    assert!(one("bare", &[1, 0, 0], &[0x0C, 42], None));
    assert!(!one("other", &[1, 0, 0], &[0x0C, 42], Some("int16 42\n")));
    assert!(!one("broken", &[1, 0], &[0x0C, 42], None));
}

#[test]
fn an_empty_folder_is_no_success() {
    let dir = fresh("empty");
    assert_eq!(run(&dir), Ok(false));
    fs::remove_dir_all(&dir).unwrap();
}
