//! docs/PROMISES.md leads from each rule to its proof: every link there has its file, and the file has the name. At its end it says
//! of every page of definitions whether the public contracts speak of it. The links of the other pages are followed too.

use std::fs;
use std::path::Path;

fn docs() -> std::path::PathBuf {
    Path::new(env!("CARGO_MANIFEST_DIR")).join("../../docs")
}

fn page() -> String {
    fs::read_to_string(docs().join("PROMISES.md")).unwrap()
}

/// The text and the target of each link.
fn links(page: &str) -> Vec<(&str, &str)> {
    let mut all = Vec::new();
    let mut rest = page;
    while let Some((before, after)) = rest.split_once("](") {
        let text = before.rsplit('[').next().unwrap();
        let (target, next) = after.split_once(')').unwrap();
        all.push((text, target));
        rest = next;
    }
    all
}

/// Whether a name stands in a text by itself, and not as a part of another.
fn names(text: &str, name: &str) -> bool {
    let part = |c: Option<char>| c.is_some_and(|c| c.is_alphanumeric() || c == '_' || c == '-');
    text.match_indices(name).any(|(at, _)| {
        let after = text[at + name.len()..].chars().next();
        !part(text[..at].chars().next_back()) && !part(after)
    })
}

/// The anchors of a page's headings: small letters, a hyphen for each space, and nothing else but digits.
fn anchors(page: &str) -> Vec<String> {
    let of = |heading: &str| {
        let kept = heading.trim_start_matches('#').trim().to_lowercase();
        let kept = kept.replace(' ', "-");
        kept.chars()
            .filter(|c| c.is_alphanumeric() || *c == '-' || *c == '_')
            .collect()
    };
    page.lines()
        .filter(|l| l.starts_with('#'))
        .map(of)
        .collect()
}

#[test]
fn every_link_leads_somewhere() {
    let page = page();
    let all = links(&page);
    assert!(all.len() > 300, "{}", all.len());
    for (text, target) in all {
        if let Some(anchor) = target.strip_prefix('#') {
            assert!(anchors(&page).iter().any(|a| a == anchor), "{target}");
            continue;
        }
        let there = fs::read_to_string(docs().join(target));
        let there = there.unwrap_or_else(|e| panic!("{text}: {target}: {e}"));
        if let Some(name) = text.strip_prefix('`').and_then(|t| t.strip_suffix('`')) {
            assert!(names(&there, name), "{target} has no {name}");
        }
    }
}

/// The other pages' links: each has its file.
#[test]
fn the_other_pages_lead_somewhere() {
    let all = fs::read_dir(docs()).unwrap().map(|f| f.unwrap().path());
    let pages = all.filter(|p| p.extension().is_some_and(|e| e == "md"));
    for path in pages.chain([docs().join("../README.md")]) {
        let page = fs::read_to_string(&path).unwrap();
        for (text, target) in links(&page) {
            if let Some(anchor) = target.strip_prefix('#') {
                assert!(anchors(&page).iter().any(|a| a == anchor), "{target}");
            } else if !target.starts_with("https://") {
                let there = path.parent().unwrap().join(target);
                assert!(there.exists(), "{}: {text}: {target}", path.display());
            }
        }
    }
}

/// The pages of definitions, as PROMISES.md links them; `Lib` only names the others.
fn specs() -> Vec<String> {
    let mut all = Vec::new();
    let crates = docs().join("../crates");
    for folder in fs::read_dir(&crates).unwrap() {
        let folder = folder.unwrap();
        let name = folder.file_name().into_string().unwrap();
        let Ok(pages) = fs::read_dir(folder.path().join("specs")) else {
            continue;
        };
        for page in pages {
            let page = page.unwrap().file_name().into_string().unwrap();
            if page.ends_with(".antt") && page != "Lib.antt" {
                all.push(format!("../crates/{name}/specs/{page}"));
            }
        }
    }
    all
}

/// What stands under the last heading: the table of all pages of definitions.
fn last_table(page: &str) -> &str {
    let heading = "\n## What a reader has to believe\n";
    page.split_once(heading).unwrap().1
}

#[test]
fn every_page_of_definitions_is_placed_once() {
    let page = page();
    let last = last_table(&page);
    let placed: Vec<&str> = links(last).into_iter().map(|(_, target)| target).collect();
    let specs = specs();
    assert!(specs.len() > 80, "{}", specs.len());
    for page in &specs {
        let times = placed.iter().filter(|p| *p == page).count();
        assert_eq!(times, 1, "{page}");
    }
    assert_eq!(placed.len(), specs.len());
}

/// The kind that a page's first line gives: a law, an inner page, or, where it gives none, one that contracts speak of.
fn kind(target: &str) -> usize {
    let page = fs::read_to_string(docs().join(target)).unwrap();
    match page.lines().next().unwrap() {
        line if line.starts_with("-- Law: ") => 1,
        line if line.starts_with("-- Inner: ") => 2,
        _ => 0,
    }
}

/// Each row of the last table has a crate and three columns: what contracts speak of, laws, inner pages.
#[test]
fn the_table_says_of_each_page_what_its_first_line_says() {
    let page = page();
    let last = last_table(&page);
    let mut seen = 0;
    for row in last.lines().filter(|l| l.starts_with("| `")) {
        let cells: Vec<&str> = row.split('|').skip(2).take(3).collect();
        for (column, cell) in cells.iter().enumerate() {
            for (text, target) in links(cell) {
                assert_eq!(kind(target), column, "{text}: {target}");
                seen += 1;
            }
        }
    }
    assert_eq!(seen, specs().len());
}
