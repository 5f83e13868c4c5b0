//! crates.txt: groups, each under a comment line, and in each the crates with what they depend on.

pub struct Crate {
    pub name: String,
    pub needs: Vec<String>,
}

pub struct Group {
    pub title: String,
    pub crates: Vec<Crate>,
}

pub fn groups(list: &str) -> Vec<Group> {
    let mut all: Vec<Group> = Vec::new();
    for line in list.lines().map(str::trim).filter(|l| !l.is_empty()) {
        if let Some(title) = line.strip_prefix('#') {
            all.push(Group {
                title: title.trim().to_string(),
                crates: Vec::new(),
            });
            continue;
        }
        let (name, needs) = line.split_once(':').expect("NAME: DEP DEP ..");
        let group = all
            .last_mut()
            .expect("a comment line before the first crate");
        // a word behind the name tells what is built of the crate
        let name = name.split_whitespace().next().expect("a crate's name");
        group.crates.push(Crate {
            name: name.to_string(),
            needs: needs.split_whitespace().map(str::to_string).collect(),
        });
    }
    all
}

/// How many crates of the group stand below each one of it, one on the other.
pub fn depths(group: &Group) -> Vec<usize> {
    let at = |name: &str| group.crates.iter().position(|c| c.name == name);
    let mut depth = vec![0; group.crates.len()];
    for _ in 0..group.crates.len() {
        for (i, c) in group.crates.iter().enumerate() {
            for j in c.needs.iter().filter_map(|n| at(n)) {
                depth[i] = depth[i].max(depth[j] + 1);
            }
        }
    }
    depth
}

/// The pairs (below, above) in a group of which neither follows from others.
pub fn steps(group: &Group) -> Vec<(usize, usize)> {
    let at = |name: &str| group.crates.iter().position(|c| c.name == name);
    let below =
        |i: usize| -> Vec<usize> { group.crates[i].needs.iter().filter_map(|n| at(n)).collect() };
    let mut all = Vec::new();
    for i in 0..group.crates.len() {
        for j in below(i) {
            if !below(i).iter().any(|&k| k != j && reaches(&below, k, j)) {
                all.push((j, i));
            }
        }
    }
    all
}

fn reaches(below: &impl Fn(usize) -> Vec<usize>, from: usize, to: usize) -> bool {
    from == to || below(from).into_iter().any(|k| reaches(below, k, to))
}

/// The groups whose crates a group names, its own left out.
pub fn stands_on(all: &[Group], group: &Group) -> Vec<usize> {
    let names = |g: &Group, n: &String| g.crates.iter().any(|c| &c.name == n);
    let needs: Vec<&String> = group.crates.iter().flat_map(|c| &c.needs).collect();
    (0..all.len())
        .filter(|&i| all[i].title != group.title && needs.iter().any(|n| names(&all[i], n)))
        .collect()
}
