//! The result of the command `image` on the disk: written as a whole or not at all, on a disk that is full or may not
//! be written to, and beside others that want the same name.

#[path = "support/image.rs"]
#[allow(dead_code)]
mod image;

use std::fs::{self, Permissions};
use std::io::{stderr, ErrorKind, Write};
use std::os::unix::fs::{MetadataExt, PermissionsExt};
use std::os::unix::process::CommandExt;
use std::process::{Command, Stdio};

use image::desk::failed;
use image::{bench_desk, TASKS};
use tools::replace::create;

/// A disk that takes 2,048 bytes and no more: what is there stays, and nothing is left of the new file.
#[test]
fn full_disk() {
    let desk = bench_desk("full");
    for [task, input] in TASKS {
        for to in ["new", "old --force", "new --force"] {
            let command = format!("\"$COMMAND\" {task} --part 0 {input} {to}");
            let line = format!("trap '' XFSZ; ulimit -f 4; exec {command}");
            let sentence = desk.unchanged(|| failed(desk.shell(&line).output().unwrap(), ""));
            let name = to.split(' ').next().unwrap();
            assert!(
                sentence.starts_with(&format!("{name} cannot be written: File too large")),
                "{sentence}"
            );
        }
    }
}

#[test]
fn results_that_have_no_place() {
    let desk = bench_desk("no_place");
    for [task, input] in TASKS {
        for (to, why) in [
            ("none/new", "No such file"),
            ("chip.bin/new", "Not a directory"),
            ("none/", "Not a directory"),
            (&"n".repeat(300), "File name too long"),
        ] {
            for force in [&[][..], &["--force"]] {
                let words = [&[task, input, "--part", "0", to], force].concat();
                let sentence = desk.refused(&words, "");
                assert!(
                    sentence.starts_with(&format!("{to} cannot be written: {why}")),
                    "{sentence}"
                );
            }
        }
    }
}

/// Without the right to read or to write; root, who has every right, gives it up and is nobody.
#[test]
fn rights() {
    let desk = bench_desk("rights");
    fs::create_dir(desk.path("shut")).unwrap();
    let root = fs::metadata(desk.path("shut")).unwrap().uid() == 0;
    let run = |words: &[&str]| {
        let mut command: Command = desk.command(env!("CARGO_BIN_EXE_image"), words);
        if root {
            command.uid(65_534).gid(65_534);
        }
        command.output()
    };
    if run(&["--help"]).map_err(|e| e.kind()).is_err_and(|kind| kind == ErrorKind::PermissionDenied)
    {
        let _ = writeln!(stderr(), "image: skipped: nobody may not run what root has built here");
        return;
    }
    fs::set_permissions(desk.path("shut"), Permissions::from_mode(0o555)).unwrap();
    fs::set_permissions(desk.path("chip.img"), Permissions::from_mode(0o000)).unwrap();
    let says = |words: &[&str], sentence: &str| {
        let said = failed(run(words).unwrap(), "");
        assert!(said.starts_with(sentence), "{said}");
    };
    let unwritten = "shut/new cannot be written: Permission denied";
    says(&["write", "--part", "0", "chip.bin", "shut/new"], unwritten);
    says(&["write", "--part", "0", "chip.bin", "shut/new", "--force"], unwritten);
    says(&["check", "--part", "0", "chip.img"], "chip.img cannot be read: Permission denied");
    assert_eq!(fs::read_dir(desk.path("shut")).unwrap().count(), 0);
}

/// What gets the name while the result is written keeps it.
#[test]
fn a_name_that_is_taken_meanwhile() {
    let desk = bench_desk("meanwhile");
    let new = desk.path("new");
    let taken = create(&new, b"late", |_| fs::write(&new, "early")).unwrap_err();
    assert_eq!(
        (taken.kind(), fs::read(&new).unwrap()),
        (ErrorKind::AlreadyExists, b"early".to_vec())
    );
    fs::remove_file(&new).unwrap();
    create(&new, b"made", |empty| {
        assert_eq!((empty.metadata()?.len(), new.exists()), (0, false));
        Ok(())
    })
    .unwrap();
    assert_eq!(fs::read(&new).unwrap(), b"made");
    assert_eq!(fs::metadata(&new).unwrap().nlink(), 1);
    assert_eq!(fs::read_dir(desk.path("")).unwrap().count(), 4, "nothing else is left");
}

/// Where there can be no second link to the new file, as on some disks, it is renamed; here it is no file by then.
#[test]
fn a_disk_without_links() {
    let desk = bench_desk("no_links");
    let beside = desk.path(&format!("new.{}.new", std::process::id()));
    let no_file = |_: &fs::File| fs::remove_file(&beside).and_then(|()| fs::create_dir(&beside));
    create(&desk.path("new"), b"", no_file).unwrap();
    assert!(desk.path("new").is_dir() && !beside.exists());
    let taken = create(&desk.path("new"), b"", |_| Ok(())).unwrap_err();
    assert_eq!(taken.kind(), ErrorKind::AlreadyExists);
}

/// Of many that want one name at the same time one gets it, and the others say so.
#[test]
fn one_name_for_many() {
    let desk = bench_desk("race");
    let run = || {
        let mut command =
            desk.command(env!("CARGO_BIN_EXE_image"), &["write", "--part", "0", "chip.bin", "new"]);
        command.stdout(Stdio::piped()).stderr(Stdio::piped()).spawn().unwrap()
    };
    for _ in 0..10 {
        let children: Vec<_> = (0..8).map(|_| run()).collect();
        let ends = children.into_iter().map(|child| child.wait_with_output().unwrap());
        let (made, refused): (Vec<_>, Vec<_>) = ends.partition(|end| end.status.success());
        assert_eq!(made.len(), 1);
        for end in refused {
            assert_eq!(failed(end, ""), "new is there already; --force replaces it.");
        }
        assert!(desk.get("new") == desk.get("chip.img"));
        fs::remove_file(desk.path("new")).unwrap();
        assert_eq!(fs::read_dir(desk.path("")).unwrap().count(), 3, "nothing else is left");
    }
}
