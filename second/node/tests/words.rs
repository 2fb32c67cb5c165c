//! What is said to arguments, lines and files: words and statuses.
use node::*;
use std::fs;
use std::os::unix::fs::PermissionsExt;
use std::path::Path;
use std::process::Command;

#[test]
fn lines_and_answers() {
    let folder = Folder::new();
    let file = folder.path("j");
    four(&file);
    let mut run = Run::new(&file);
    assert_eq!(run.first.as_deref(), Some("again 0 0"));
    let longest = "x".repeat(1000);
    for (line, answer) in [
        ("proposal 1 0 50 -1 1 9", "refused 3"),
        ("start 0 0 0 -1 0 9", "accepted 1; out ask-propose 0 0 -1"),
        ("", "bad line 3"),
        ("proposal 1 0 050 -1 1 9", "bad line 4"),
        ("proposal 1 0 50 -1 1 9 ", "bad line 5"),
        ("proposal  1 0 50 -1 1 9", "bad line 6"),
        ("proposal 1 0 50 -2 1 9", "bad line 7"),
        ("proposal 256 0 50 -1 1 9", "bad line 8"),
        ("proposal 1 0 18446744073709551616 -1 1 9", "bad line 9"),
        ("prevot 1 0 50 -1 0 9", "bad line 10"),
        (longest.as_str(), "bad line 11"),
        ("proposal 1 0 18446744073709551615 -1 1 9", "accepted 1; out prevote 0 18446744073709551615 -1"),
        ("prevote 1 0 0 -1 0 9", "accepted 0"),
        ("prevote 1 0 0 -1 0 9", "refused 8"),
        ("prevote 1 0 5 -1 0 9", "refused 9"),
        ("timer-precommit 0 0 0 -1 0 9", "refused 10"),
        ("prevote 0 0 0 -1 0 9", "refused 6"),
        ("prevote 4 0 0 -1 0 9", "refused 5"),
    ] {
        assert_eq!(run.put(line), answer, "{line}");
    }
    assert_eq!(run.end(), (Some(0), String::new()));
    assert_eq!(node(&["last"], &file, &[], "").out, "3 prevote 1 0 0 -1 0 9\n");
    // A last line without its end may be cut: it is no input.
    let cut = node(&["run"], &file, &[], "prevote 2 0 0 -1 0 9");
    assert_eq!((cut.status, cut.out.as_str()), (Some(0), "again 1 0\nout prevote 0 18446744073709551615 -1\nbad line 1\n"));
    assert_eq!(listing(&file).last().unwrap(), &format!("end {0} of {0}", fs::metadata(&file).unwrap().len()));
}

#[test]
fn arguments() {
    let folder = Folder::new();
    let file = folder.path("j");
    let help = told(Command::new(launcher()).arg("--help"), "");
    assert_eq!((help.status, help.err.as_str()), (Some(0), ""));
    assert!(help.out.starts_with("usage: node create FILE") && help.out.lines().count() <= 24, "{}", help.out);
    for (words, more) in [
        (&[][..], &[][..]),
        (&["go"], &[]),
        (&["run"], &["more"]),
        (&["list"], &["more"]),
        (&["create"], &[]),
        (&["create"], &["0", "1"]),
        (&["create"], &["0", "x", "1"]),
        (&["create"], &["0", "1", "-1"]),
        (&["create"], &["0", "4294967296", "1"]),
        (&["run-locked"], &[]),
        (&["--help"], &["more"]),
    ] {
        let wrong = node(words, &file, more, "");
        assert_eq!((wrong.status, wrong.out.as_str()), (Some(2), ""), "{words:?} {more:?}");
        assert_eq!(wrong.err, help.out, "{words:?} {more:?}");
    }
    assert_eq!(told(&mut Command::new(launcher()), "").status, Some(2));
    assert!(!file.exists());
}

#[test]
fn creating() {
    let folder = Folder::new();
    let file = folder.path("j");
    for more in [&["4", "1", "1", "1", "1", "1"][..], &["0", "1", "1001"], &["0", "1", "0"], &["0", "1", "70000"]] {
        let refused = node(&["create"], &file, more, "");
        assert_eq!((refused.status, refused.out.as_str()), (Some(1), "refused 15\n"), "{more:?}");
    }
    let many: Vec<&str> = ["0", "1"].into_iter().chain(vec!["1"; 33]).collect();
    assert_eq!(node(&["create"], &file, &many, "").out, "refused 15\n");
    assert!(!file.exists(), "a refusal makes no file");
    four(&file);
    let header = fs::read(&file).unwrap();
    let more = ["0", "1", "1", "1", "1", "1"];
    // A whole header is never touched, with or without a record after it, and whatever roll is asked for.
    for after in [0, 30] {
        let bytes = [header.clone(), vec![24; after]].concat();
        fs::write(&file, &bytes).unwrap();
        for words in [&more[..], &["0", "1", "2", "2", "2", "2"], &["0", "1", "1"]] {
            let again = node(&["create"], &file, words, "");
            assert_eq!((again.status, again.out.as_str()), (Some(1), ""), "{words:?}");
            assert!(again.err.contains("not touched"), "{}", again.err);
            assert!(fs::read(&file).unwrap() == bytes);
        }
    }
    // After a cut in writing it, the same header is completed; another is not.
    for cut in 0..header.len() {
        fs::write(&file, &header[..cut]).unwrap();
        let refused = node(&["run"], &file, &[], "");
        assert_eq!((refused.status, refused.out.as_str()), (Some(1), "refused 13\n"), "cut at {cut}");
        if cut > 1 {
            let other = node(&["create"], &file, &["0", "1", "2", "1", "1", "1"], "");
            assert_eq!((other.status, other.out.as_str()), (Some(1), ""), "cut at {cut}");
            assert!(fs::read(&file).unwrap() == header[..cut]);
        }
        four(&file);
        assert!(fs::read(&file).unwrap() == header, "cut at {cut}");
    }
    // In a folder that is missing, or past a limit on the size.
    let nowhere = node(&["create"], &folder.path("none/j"), &more, "");
    assert_eq!((nowhere.status, nowhere.out.as_str()), (Some(1), ""));
    let small = folder.path("small");
    let limited = told(Command::new("prlimit").arg("--fsize=10").arg(launcher()).arg("create").arg(&small).args(more), "");
    assert_eq!((limited.status, limited.out.as_str()), (Some(1), "refused 12\n"), "{}", limited.err);
    assert_eq!(fs::metadata(&small).unwrap().len(), 0);
    four(&small);
}

/// A file that cannot be used: status 1, a line on standard error, nothing on standard output.
fn unusable(file: &Path, says: &str) {
    for word in ["run", "list", "last"] {
        let e = node(&[word], file, &[], "start 0 0 0 -1 0 9\n");
        assert_eq!((e.status, e.out.as_str()), (Some(1), ""), "{word}: {}", e.err);
        assert!(e.err.contains(says), "{word}: {}", e.err);
    }
}

#[test]
fn files_of_other_kinds() {
    let folder = Folder::new();
    unusable(&folder.path(""), "is a folder");
    unusable(&folder.path("none"), "no such file");
    unusable(Path::new("/dev/zero"), "is no regular file");
    let fifo = folder.path("fifo");
    assert!(Command::new("mkfifo").arg(&fifo).status().unwrap().success());
    unusable(&fifo, "is no regular file");
    for other in [folder.path(""), fifo, "/dev/zero".into()] {
        assert_eq!(node(&["create"], &other, &["0", "1", "1"], "").status, Some(1));
    }
}

#[test]
fn journals_that_do_not_open() {
    let folder = Folder::new();
    let file = folder.path("j");
    four(&file);
    let header = fs::read(&file).unwrap();
    for (bytes, says) in [
        (vec![], "refused 13\n"),
        (vec![33], "refused 14 at 0\n"),
        ([header.clone(), vec![7]].concat(), "refused 14 at 15\n"),
        (vec![4; 28500], "refused 1\n"),
    ] {
        fs::write(&file, &bytes).unwrap();
        for word in ["run", "list", "last"] {
            let e = node(&[word], &file, &[], "start 0 0 0 -1 0 9\n");
            assert_eq!((e.status, e.out.as_str()), (Some(1), says), "{word}: {}", e.err);
        }
        assert!(fs::read(&file).unwrap() == bytes, "touched");
    }
}

#[test]
fn read_only_file() {
    // Root writes everywhere, so the launcher and the program go where nobody can read them.
    let folder = Folder::new();
    let root = launcher().parent().unwrap().parent().unwrap().to_path_buf();
    for part in ["bin/node", "crates/node/out/node"] {
        let to = folder.path(part);
        fs::create_dir_all(to.parent().unwrap()).unwrap();
        fs::copy(root.join(part), &to).unwrap();
    }
    let file = folder.path("j");
    four(&file);
    fs::set_permissions(&file, fs::Permissions::from_mode(0o444)).unwrap();
    let bytes = fs::read(&file).unwrap();
    let is_root = String::from_utf8(Command::new("id").arg("-u").output().unwrap().stdout).unwrap().trim() == "0";
    let mut command = Command::new(if is_root { "setpriv" } else { "env" });
    if is_root {
        command.args(["--reuid=65534", "--regid=65534", "--clear-groups"]);
    }
    let e = told(command.arg(folder.path("bin/node")).arg("run").arg(&file), "start 0 0 0 -1 0 9\n");
    assert_eq!((e.status, e.out.as_str()), (Some(1), ""), "{}", e.err);
    assert!(e.err.contains("cannot be written"), "{}", e.err);
    assert!(fs::read(&file).unwrap() == bytes);
}

#[test]
fn closed_streams() {
    let folder = Folder::new();
    let file = folder.path("j");
    four(&file);
    let bytes = fs::read(&file).unwrap();
    for closed in ["<&-", ">&-", "2>&-"] {
        let e = told(Command::new("bash").arg("-c").arg(format!("\"$0\" run \"$1\" {closed}")).arg(launcher()).arg(&file), "start 0 0 0 -1 0 9\n");
        assert_eq!((e.status, e.out.as_str()), (Some(1), ""), "{closed}");
        assert!(fs::read(&file).unwrap() == bytes, "{closed}");
    }
}
