//! docs/RULES.md numbers the rules. Each number is given once; every rule that is cited exists; every rule has its row in
//! docs/PROMISES.md; and nothing here leans on a page that is not in the repository.

use std::collections::BTreeSet;
use std::fs;
use std::path::{Path, PathBuf};

fn repository() -> PathBuf {
    Path::new(env!("CARGO_MANIFEST_DIR")).join("../..")
}

fn read(page: &str) -> String {
    fs::read_to_string(repository().join(page)).unwrap()
}

/// The files that people wrote: everything with such an ending, but for what is built.
fn texts() -> Vec<(PathBuf, String)> {
    const ENDINGS: [&str; 10] = [
        "antt", "rt", "edit", "md", "h", "c", "rs", "py", "toml", "txt",
    ];
    let mut all = Vec::new();
    let mut folders = vec![repository()];
    while let Some(folder) = folders.pop() {
        for entry in fs::read_dir(&folder).unwrap() {
            let path = entry.unwrap().path();
            let name = path.file_name().unwrap().to_str().unwrap();
            if path.is_dir() {
                if name != "target" && !name.starts_with('.') {
                    folders.push(path);
                }
                continue;
            }
            let ending = path.extension().and_then(|e| e.to_str());
            // Programs of the shell, and the Makefile, have no ending.
            if ending.is_none_or(|e| ENDINGS.contains(&e))
                && let Ok(text) = fs::read_to_string(&path)
            {
                all.push((path, text));
            }
        }
    }
    assert!(all.len() > 500, "{}", all.len());
    all
}

/// A rule's number at the start of a text: a capital letter and digits, and no letter or digit after them.
fn number(text: &str) -> Option<&str> {
    let letter = text.chars().next().filter(char::is_ascii_uppercase)?;
    let rest = &text[letter.len_utf8()..];
    let digits = rest.len() - rest.trim_start_matches(|c: char| c.is_ascii_digit()).len();
    let after = rest[digits..].chars().next();
    let ends = !after.is_some_and(|c| c.is_alphanumeric() || c == '_');
    (digits > 0 && ends).then(|| &text[..1 + digits])
}

/// The rules in their order: `**D4.**` starts a line.
fn rules(page: &str) -> Vec<&str> {
    page.lines()
        .filter_map(|l| {
            let rest = l.strip_prefix("**")?;
            let found = number(rest)?;
            rest[found.len()..].starts_with(".** ").then_some(found)
        })
        .collect()
}

/// The numbers cited in a text: after the word rule or rules, one, or several with a comma, a hyphen, "and", "or" or "to" between.
fn cited(text: &str) -> Vec<&str> {
    let mut all = Vec::new();
    for word in ["rule ", "rules ", "Rule ", "Rules "] {
        for (at, _) in text.match_indices(word) {
            let mut rest = &text[at + word.len()..];
            while let Some(found) = number(rest) {
                all.push(found);
                rest = &rest[found.len()..];
                let between = [", and ", ", ", " and ", " or ", " to ", "-", "–"];
                let Some(next) = between.iter().find_map(|b| rest.strip_prefix(b)) else {
                    break;
                };
                rest = next;
            }
        }
    }
    all
}

/// The numbers in the first cells of a page's tables.
fn rows(page: &str) -> BTreeSet<&str> {
    page.lines()
        .filter_map(|l| l.strip_prefix("| ")?.split(" |").next())
        .flat_map(|cell| cell.split(", ").filter(|c| number(c) == Some(c)))
        .collect()
}

#[test]
fn numbers_are_given_once_and_rise() {
    let page = read("docs/RULES.md");
    let rules = rules(&page);
    assert!(rules.len() > 90, "{}", rules.len());
    let mut last = ("", 0);
    let mut letters = Vec::new();
    for rule in rules {
        let (letter, n) = (&rule[..1], rule[1..].parse::<u32>().unwrap());
        if letter != last.0 {
            assert!(!letters.contains(&letter), "{rule} is not with its letter");
            letters.push(letter);
            last = (letter, 0);
        }
        assert!(n > last.1, "{rule} comes after {}{}", last.0, last.1);
        last.1 = n;
    }
}

#[test]
fn every_rule_cited_exists() {
    let page = read("docs/RULES.md");
    let known: BTreeSet<&str> = rules(&page).into_iter().collect();
    let mut wrong = Vec::new();
    for (path, text) in texts() {
        for rule in cited(&text) {
            if !known.contains(rule) {
                wrong.push(format!("{}: {rule}", path.display()));
            }
        }
    }
    assert!(wrong.is_empty(), "no such rule:\n{}", wrong.join("\n"));
}

#[test]
fn the_rules_cite_each_other_rightly() {
    let page = read("docs/RULES.md");
    let known: BTreeSet<&str> = rules(&page).into_iter().collect();
    let letters: BTreeSet<&str> = known.iter().map(|r| &r[..1]).collect();
    for (at, _) in page.char_indices() {
        let before = page[..at].chars().next_back();
        if before.is_some_and(|c| c.is_alphanumeric() || c == '_') {
            continue;
        }
        if let Some(rule) = number(&page[at..])
            && letters.contains(&rule[..1])
        {
            assert!(known.contains(rule), "{rule}");
        }
    }
}

#[test]
fn every_rule_has_its_row() {
    let (page, promises) = (read("docs/RULES.md"), read("docs/PROMISES.md"));
    let rows = rows(&promises);
    let rules: BTreeSet<&str> = rules(&page).into_iter().collect();
    let without: Vec<_> = rules.difference(&rows).collect();
    assert!(without.is_empty(), "no row in PROMISES.md: {without:?}");
    let unknown: Vec<_> = rows.difference(&rules).collect();
    assert!(unknown.is_empty(), "no such rule: {unknown:?}");
}

/// The pages that this was built from are not in the repository, so no text may send a reader to them.
#[test]
fn no_text_leans_on_a_page_that_is_not_here() {
    const MARKS: [&str; 6] = ["//", "//!", "///", "--", "*", "#"];
    let mut wrong = Vec::new();
    for (path, text) in texts() {
        // Word by word, so that a line's end between two words hides nothing.
        let words = text.split_whitespace().filter(|w| !MARKS.contains(w));
        let words: Vec<&str> = words.collect();
        let pages = |w: &[&str]| w[0].to_lowercase().ends_with("document") && w[1].starts_with('0');
        let times = words.windows(2).filter(|w| pages(w)).count();
        if times > 0 {
            wrong.push(format!("{} ({times})", path.display()));
        }
    }
    assert!(wrong.is_empty(), "{}", wrong.join("\n"));
}

/// That the tests above find what they look for.
#[test]
fn numbers_are_found() {
    assert_eq!(cited("by rule D4."), ["D4"]);
    assert_eq!(
        cited("rules D8 to D10, O5 and P1: rule of"),
        ["D8", "D10", "O5", "P1"]
    );
    assert!(cited("rule F32bit, the rule of D4").is_empty());
    assert_eq!(
        rules("**A1.** One.\n**What** is\n**A22.** Two.\n"),
        ["A1", "A22"]
    );
    let rows = rows("| A1 | x |\n| E1, E2 | y |\n| crate | D9 |\n");
    assert_eq!(rows.into_iter().collect::<Vec<_>>(), ["A1", "E1", "E2"]);
}
