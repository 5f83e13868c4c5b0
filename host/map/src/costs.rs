//! What the gate costs, by crate: the table of docs/ARCHITECTURE.md, made of what `rt ci` said in the last gate.

use crate::crates::Group;

/// Of one crate: the seconds of its proof, and of each of its wrong programs.
#[derive(Default)]
struct Cost {
    proof: u32,
    edits: Vec<u32>,
}

/// The number before " s)" at the end of a line.
fn seconds(line: &str) -> Option<u32> {
    line.strip_suffix(" s)")?
        .rsplit([' ', '('])
        .next()?
        .parse()
        .ok()
}

fn cost_of(name: &str, said: &str) -> Cost {
    let mut cost = Cost::default();
    let proved = format!("rt: {name} proved (");
    let edit = format!("rt: must-fail {name}/");
    for line in said.lines() {
        if line.starts_with(&proved) {
            cost.proof = seconds(line).expect(line);
        } else if line.starts_with(&edit) {
            cost.edits.push(seconds(line).expect(line));
        }
    }
    cost
}

fn row(stage: &str, name: &str, cost: &Cost) -> String {
    let edits = match cost.edits.len() {
        0 => " |  |".to_string(),
        n => format!("{n} | {} s |", cost.edits.iter().sum::<u32>()),
    };
    format!("| {stage} | {name} | {} s | {edits}\n", cost.proof)
}

/// The table: a row for each crate, in the order of crates.txt, and one for all.
pub fn table(groups: &[Group], said: &str) -> String {
    let mut text = String::from(
        "| stage | crate | proved in | wrong programs | refused in |\n|---|---|---|---|---|\n",
    );
    let mut all = Cost::default();
    for group in groups {
        let title = group.title.split(':').next().unwrap();
        for (i, c) in group.crates.iter().enumerate() {
            let cost = cost_of(&c.name, said);
            let stage = if i == 0 { title } else { "" };
            text.push_str(&row(stage, &format!("`{}`", c.name), &cost));
            all.proof += cost.proof;
            all.edits.extend(cost.edits);
        }
    }
    text.push_str(&row("all", "", &all));
    text
}

/// The page with this table in place of the one that it has.
pub fn replaced(page: &str, table: &str) -> String {
    let from = page.find("| stage | crate |").expect("a table of costs");
    let last = from + page[from..].find("| all |").expect("its last row");
    let to = last + page[last..].find('\n').expect("the end of it") + 1;
    format!("{}{table}{}", &page[..from], &page[to..])
}

#[test]
fn a_crate_has_its_proof_and_its_wrong_programs() {
    let said = "rt: a proved (3 s)\n\
                rt: ab proved (7 s)\n\
                rt: must-fail a/one: refused, as it must be (first at proofs/f/Proof.antt:1:2; 10 s)\n\
                rt: must-fail a/two: refused, as it must be (11 s)\n";
    let groups = crate::crates::groups("# first: and more\na:\nab: a\n");
    let rows: Vec<String> = table(&groups, said)
        .lines()
        .skip(2)
        .map(str::to_string)
        .collect();
    assert_eq!(
        rows,
        [
            "| first | `a` | 3 s | 2 | 21 s |",
            "|  | `ab` | 7 s |  |  |",
            "| all |  | 10 s | 2 | 21 s |"
        ]
    );
    assert_eq!(
        replaced("x\n| stage | crate | old\n| all | old |\ny\n", "new\n"),
        "x\nnew\ny\n"
    );
}
