//! The frozen sets: for each release of the meaning, inputs and what was answered to them at that
//! release. A build whose answers leave the set of its own release has moved the meaning.
//!
//! A set is made once, by `compare --freeze`, from the answers of the independent program, and never
//! changed after.

use std::fs;
use std::path::{Path, PathBuf};

use oracle::Rules;

use crate::account::{Account, Comparison};
use crate::case::Case;
use crate::chosen::{self, Named};
use crate::telling;

/// A call of a frozen set, and the lines of its answer.
pub struct Frozen {
    pub name: String,
    pub case: Case,
    pub answer: Vec<String>,
}

/// The files of a set.
const FILES: [&str; 2] = ["calls.txt", "borders.txt"];

fn folder(release: u32) -> PathBuf {
    let releases = Path::new(env!("CARGO_MANIFEST_DIR")).join("../releases");
    releases.join(release.to_string())
}

/// The set of a release; none where it has none.
pub fn set(release: u32) -> Option<Vec<Frozen>> {
    let mut set = Vec::new();
    for file in FILES {
        let path = folder(release).join(file);
        let text = fs::read_to_string(&path).ok()?;
        let blocks = text
            .split("\n\n")
            .filter(|block| block.starts_with("case "));
        for block in blocks {
            let frozen = parse(block);
            set.push(frozen.unwrap_or_else(|| panic!("{}: no case: {block}", path.display())));
        }
    }
    Some(set)
}

/// The calls that a build of a release is held to: those of its set, and those chosen of a call that
/// came after it.
pub fn calls(release: u32) -> Vec<Named> {
    let set = set(release).unwrap_or_default();
    let gained = chosen::since(&set);
    let named = |Frozen { name, case, .. }| Named { name, case };
    set.into_iter().map(named).chain(gained).collect()
}

/// A block of lines: `case NAME`, the call, `gives`, the answer.
fn parse(block: &str) -> Option<Frozen> {
    let lines: Vec<&str> = block.lines().collect();
    let gives = lines.iter().position(|line| *line == "gives")?;
    Some(Frozen {
        name: lines[0].strip_prefix("case ")?.to_string(),
        case: Case::of_lines(&lines[1..gives])?,
        answer: lines[gives + 1..]
            .iter()
            .map(|line| line.to_string())
            .collect(),
    })
}

fn block(named: &Named, rules: &Rules) -> String {
    let mut lines = vec![format!("case {}", named.name)];
    lines.extend(named.case.lines());
    lines.push("gives".to_string());
    lines.extend(named.case.by_paper(rules).lines());
    lines.join("\n") + "\n\n"
}

/// Holds the build to the set of its release, and the independent program to the set of each.
pub fn compare(account: &mut Account) {
    let release = library::meaning();
    let Some(own) = set(release) else {
        account.compare("the frozen set of this release", |_| {
            println!("release {release} has no frozen set: `compare --freeze` makes one");
        });
        return;
    };
    let name = format!("release {release}, what was frozen of it, by this build");
    let moved = account.compare(&name, |c| by_library(c, &own));
    if moved {
        println!(
            "the meaning moved: add a release. This build says release {release} and answers \
             otherwise than release {release} did; docs/PROVING.md tells how a release is added."
        );
    }
    let gained = chosen::since(&own);
    if !gained.is_empty() {
        let name = format!("release {release}, calls that it gained after it was frozen");
        account.compare(&name, |c| by_both(c, &gained));
    }
    for earlier in 1..=release {
        let name = format!("release {earlier}, what was frozen of it, by the independent program");
        account.compare(&name, |c| by_paper(c, earlier));
    }
}

fn by_library(comparison: &mut Comparison, set: &[Frozen]) {
    for frozen in set {
        let got = frozen.case.by_library().lines();
        comparison.same(&got, &frozen.answer, || frozen.name.clone());
    }
}

fn by_both(comparison: &mut Comparison, calls: &[Named]) {
    for named in calls {
        comparison.case(&named.case);
    }
}

fn by_paper(comparison: &mut Comparison, release: u32) {
    let rules = oracle::release(release).expect("a release has its rules");
    for frozen in set(release).expect("a release has its set") {
        let got = frozen.case.by_paper(&rules).lines();
        comparison.same(&got, &frozen.answer, || frozen.name.clone());
    }
}

const HEAD: &str = "\
# Inputs, and what the independent program answered to them when this release of the meaning of
# \"valid\" was made. Never changed: a build that answers otherwise has another meaning.
# A lane is written in runs: `7` one number, `7x20` twenty times 7, `7+3x20` twenty numbers, each 3
# above the one before, `( .. )x66` runs that repeat. A long lane of an answer is written as the
# number of its places and a sum over them (FNV-1a, eight bytes a place, lowest first).

";

/// Writes the set of the release that the build says, from what the independent program answers.
pub fn freeze(release: u32, rules: &Rules) -> i32 {
    let folder = folder(release);
    if folder.exists() {
        eprintln!("release {release} is frozen already: {}", folder.display());
        return 1;
    }
    let borders = chosen::on_borders();
    let mut small = telling::that_tell(rules, chosen::small());
    chosen::number(&mut small);
    fs::create_dir_all(&folder).expect("the folder can be made");
    for (file, set) in FILES.iter().zip([&small, &borders]) {
        let blocks: String = set.iter().map(|named| block(named, rules)).collect();
        fs::write(folder.join(file), format!("{HEAD}{blocks}")).expect("the set can be written");
        println!("{}: {} calls", folder.join(file).display(), set.len());
    }
    0
}
