//! C and C++ programs of the tests: built with warnings as errors, run, and held to what they should print.

use std::path::{Path, PathBuf};

use rig::kit;

/// A file of the repository.
pub fn file(name: &str) -> PathBuf {
    Path::new(env!("CARGO_MANIFEST_DIR")).join("../..").join(name)
}

/// Builds a program of the repository and compares what it prints, or tells why this machine can't.
pub fn prints(standard: &str, source: &str, expected: &str) {
    built_prints(standard, source, &file(source), expected);
}

/// The same of a file anywhere, by this name.
pub fn built_prints(standard: &str, name: &str, path: &Path, expected: &str) {
    let program = Path::new(env!("CARGO_TARGET_TMPDIR")).join(name.replace(['/', '.'], "_"));
    if let Some(missing) = kit::missing(path) {
        rig::tell(&format!("skipped: {name} is not built. {missing}"));
        return;
    }
    let flags = [standard, "-O2", "-Wall", "-Wextra", "-Wpedantic", "-Werror"];
    let built = kit::build(path, &flags, Path::new(env!("M25P_ARCHIVE")), &program);
    built.unwrap_or_else(|why| panic!("{name} does not build. {why}"));
    let run = kit::command(&program).unwrap().output().unwrap();
    let text = String::from_utf8(run.stdout).unwrap();
    assert!(run.status.success(), "{name}: {}, having printed\n{text}", run.status);
    assert_eq!(text, expected);
}

/// Builds the program in a section of docs/C-CALLS.md; it prints these lines, and the page says so.
pub fn page_prints(section: &str, lines: &[&str]) {
    let page = std::fs::read_to_string(file("docs/C-CALLS.md")).unwrap();
    let inside = page.split("\n## ").find(|text| text.starts_with(section)).expect(section);
    let blocks = inside.split("```c\n").skip(1).filter_map(|rest| rest.split("```").next());
    let programs: Vec<&str> = blocks.filter(|block| block.contains("int main")).collect();
    let [program] = programs[..] else { panic!("{section} has {} programs", programs.len()) };
    let (last, others) = lines.split_last().unwrap();
    let said = others.iter().map(|line| format!("`{line}`")).collect::<Vec<_>>().join(", ");
    assert!(
        inside.contains(&format!("It prints {said} and `{last}`.")),
        "{section} says otherwise"
    );
    let name = format!("page {section}").replace(' ', "_");
    let path = Path::new(env!("CARGO_TARGET_TMPDIR")).join(format!("{name}.c"));
    std::fs::write(&path, program).unwrap();
    built_prints(
        "-std=c99",
        &name,
        &path,
        &lines.iter().map(|line| format!("{line}\n")).collect::<String>(),
    );
}
