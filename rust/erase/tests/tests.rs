//! What is erased, refused and told, by the rows of `rows.txt`, and the audit of all crates.

use erase::{audit, erase, replaced, resolved, Crate, Fault, Rules, Source};
use std::path::{Path, PathBuf};

// What a row gives is what it says, after its last arrow that is no part of it.
fn check(name: &str, parts: usize, of: impl Fn(&[String]) -> String) {
    let rows = include_str!("rows.txt").lines();
    let rows = rows.filter_map(|line| line.strip_prefix(name)?.strip_prefix(": "));
    let mut seen = 0;
    for row in rows {
        let row = row.split('⇒').map(|part| part.trim().replace('¶', "\n"));
        let row: Vec<String> = row.collect();
        assert_eq!(of(&row), row[parts - 1], "{}", row[0]);
        seen += 1;
    }
    assert!(seen > 10);
}

// A crate of which nothing but the name is asked.
fn named(name: &'static str) -> Crate {
    Crate::new(name, PathBuf::new(), vec!["gone"])
}

// The rules for a crate `a` beside a crate `b`.
fn rules_of_a() -> Rules {
    Rules::new("crate::t", &named("a"), &[named("b")])
}

fn erased(text: &str) -> Result<String, Fault> {
    let rules = rules_of_a();
    let made = erase(&Source::new("a.rt", text)?, &rules, false)?;
    audit("a.rt", text, &made, &rules)?;
    Ok(made)
}

#[test]
fn each_rule_erases() {
    let made = |row: &[String]| erased(&row[0]).unwrap_or_else(|fault| fault.0);
    check("erases", 2, |row| made(row).trim_end().into());
}

#[test]
fn the_unknown_is_refused() {
    check("refuses", 2, |row| {
        erased(&row[0]).map_or_else(|fault| fault.0, |_| "".into())
    });
}

#[test]
fn what_was_changed_is_told() {
    let told = |row: &[String]| audit("a.rt", &row[0], &row[1], &rules_of_a());
    let line = |fault: Fault| fault.0.split(": ").next().unwrap_or("").to_string();
    check("tells", 3, |row| told(row).map_or_else(line, |_| "".into()));
}

// Each token of a file that is taken out, doubled or another one is told.
#[test]
fn each_change_of_a_token_is_told() -> Result<(), Fault> {
    let others = ["rl_base", "rl_line", "rl_session", "unicode_segmentation"].map(named);
    let one = &erase::for_c()[0];
    let rules = Rules::new("crate::t", one, &others);
    for file in one.files()? {
        let source = Source::new("a.rt", &file.text)?;
        let rust = erase(&source, &rules, false)?;
        for token in Source::new("a.rs", &rust)?.tokens.iter().step_by(7) {
            let (before, after) = rust.split_at(token.at);
            let after = &after[token.text.len()..];
            for text in [
                "".into(),
                format!("{0} {0}", token.text),
                format!("{}_", token.text),
            ] {
                let changed = format!("{before}{text}{after}");
                let is_told = audit("a.rt", &file.text, &changed, &rules).is_err();
                assert!(
                    is_told || token.text.is_empty(),
                    "{text} for {} in {}",
                    token.text,
                    file.to.display()
                );
            }
        }
    }
    Ok(())
}

#[test]
fn all_crates_are_erased_and_each_rule_is_needed() -> Result<(), Fault> {
    if let Err(fault) = erase::kit() {
        eprintln!("not tested: {fault}");
        return Ok(());
    }
    let (mut crates, mut counts) = (erase::libraries()?, erase::Counts::default());
    crates.extend(erase::for_c());
    crates.extend(erase::programs());
    for one in &crates {
        counts.join(one.erased(&crates, "crate::proved")?.1);
    }
    let rules = include_str!("../src/rules.txt")
        .lines()
        .filter(|line| line.contains("~>"));
    let rules = rules.filter_map(|line| line.split([':', ' ', '[']).next());
    let all: Vec<&String> = counts.0.keys().collect();
    let is_used = |rule: &str| all.iter().any(|used| used.starts_with(rule));
    for rule in rules.filter(|rule| !["//", "keep", "refuse", "test"].contains(rule)) {
        assert!(is_used(rule), "no use of {rule} in {all:?}");
    }
    Ok(())
}

#[test]
fn what_is_packed_is_there_once() {
    let path = Path::new("a");
    assert_eq!(replaced(path, "a b", "a", "c"), Ok("c b".into()));
    assert!(replaced(path, "a b", "c", "").is_err());
    assert!(replaced(path, "a a", "a", "").is_err());
    let workspace = "edition = \"2021\"\nlicense = \"MIT\"\n";
    let manifest = "name = \"a\"\nlicense.workspace = true\npublish.workspace = true\n";
    let wanted = "name = \"a\"\nlicense = \"MIT\"\n";
    assert_eq!(resolved(path, manifest, workspace), Ok(wanted.into()));
    assert!(resolved(path, "version.workspace = true", workspace).is_err());
}
