//! The examples of README.md and docs/USING.md are files of the package, word for word, and every
//! such file is shown. `make compare` compiles and runs them. Links and paths of all pages lead
//! somewhere.

use std::collections::BTreeMap;
use std::fs;
use std::process::Command;
use ttcrx_host::testing::files::{path, text};

const DOCUMENTS: [&str; 2] = ["../README.md", "../docs/USING.md"];

/// Every file with this ending: its text and its name.
fn files(folder: &str, ending: &str) -> BTreeMap<String, String> {
    let mut files = BTreeMap::new();
    for entry in fs::read_dir(path(folder)).expect(folder) {
        let name = entry.expect(folder).file_name();
        let name = name.into_string().expect("a plain name");
        if name.ends_with(ending) {
            files.insert(text(format!("{folder}/{name}")), name);
        }
    }
    files
}

/// The code blocks of this language in both documents, without the lines that open and close them.
fn blocks(language: &str) -> Vec<String> {
    let documents = DOCUMENTS.map(text).concat();
    let opening = format!("\n```{language}\n");
    let opened = documents.split(&opening).skip(1);
    let block = |rest: &str| match rest.split_once("\n```\n") {
        Some((block, _)) => format!("{block}\n"),
        None => panic!("a code block does not end:\n{rest}"),
    };
    opened.map(block).collect()
}

/// The code blocks of a language are the files of a folder with an ending.
fn same(language: &str, folder: &str, ending: &str) {
    let files = files(folder, ending);
    let blocks = blocks(language);
    for block in &blocks {
        let known = files.contains_key(block);
        assert!(known, "this is no file of host/{folder}:\n{block}");
    }
    for (text, name) in files {
        let shown = blocks.contains(&text);
        assert!(shown, "no document shows host/{folder}/{name} as it is");
    }
}

#[test]
fn c_examples_are_files() {
    same("c", "c/examples", ".c");
}

#[test]
fn cpp_examples_are_files() {
    same("cpp", "c/examples", ".cpp");
}

#[test]
fn rust_examples_are_files() {
    same("rust", "examples", ".rs");
}

/// The command of docs/USING.md after `$` prints what the page shows.
#[test]
fn the_command_prints_what_the_page_shows() {
    let page = text("../docs/USING.md");
    let (_, rest) = page.split_once("\n    $ ").expect("a command");
    let (all, _) = rest.split_once("\n\n").expect("it ends");
    let (command, shown) = all.split_once('\n').expect("it prints");
    let run = Command::new("sh").args(["-c", command]).current_dir(path("..")).output();
    let printed = String::from_utf8(run.expect("sh runs").stdout).expect("plain text");
    let shown: Vec<&str> = shown.lines().map(str::trim).collect();
    assert_eq!(printed.lines().collect::<Vec<_>>(), shown);
}

/// README.md and the pages of docs/, each with the folder that its links count from.
fn pages() -> Vec<(&'static str, String)> {
    let mut pages = vec![("..", text("../README.md"))];
    for folder in ["../docs", "../docs/requests"] {
        pages.extend(files(folder, ".md").into_keys().map(|page| (folder, page)));
    }
    pages
}

/// What stands between two marks in a page, each time.
fn between<'a>(page: &'a str, open: &'a str, close: &'a str) -> impl Iterator<Item = &'a str> {
    let opened = page.split(open).skip(1);
    opened.filter_map(move |rest| rest.split_once(close).map(|(inside, _)| inside))
}

#[test]
fn links_lead_to_files() {
    let mut links = 0;
    for (folder, page) in pages() {
        for link in between(&page, "](", ")") {
            let there = path(folder).join(link).exists();
            assert!(there, "{folder}: no file for the link {link}");
            links += 1;
        }
    }
    assert!(links > 60, "{links} links");
}

/// Records of requests have the names of their time, and a word in capitals stands for any name.
#[test]
fn paths_lead_to_files() {
    let mut paths = 0;
    let pages = pages().into_iter().filter(|(folder, _)| !folder.ends_with("requests"));
    for (_, page) in pages {
        for name in page.split('`') {
            let named = ["crates/", "host/", "include/"].iter().any(|top| name.starts_with(top));
            if named && !name.contains(' ') && !name.contains("NAME") {
                assert!(path("..").join(name).exists(), "no file {name}");
                paths += 1;
            }
        }
    }
    assert!(paths > 100, "{paths} paths");
}
