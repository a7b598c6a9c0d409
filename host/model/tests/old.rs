//! Journals that earlier versions wrote, kept as they were: each still restores, is listed as it was then, and its last session goes on as it did.
//! `NAME.out` is what the version that wrote `NAME.journal` answered to `NAME.trace` over it, with the losses that request 2026-06 put behind these
//! answers; `NAME.list` is its listing.

use rossinhiu_model::file::FileConsole;
use rossinhiu_model::harness::*;
use rossinhiu_model::listing::list;
use std::fs;
use std::path::PathBuf;

rossinhiu_model::of_both! {
    old_journals_restore_and_go_on,
    old_journals_are_listed_as_they_were,
}

fn old(name: &str) -> PathBuf {
    top().join("host/model/old").join(name)
}

fn kept(name: &str) -> Vec<u8> {
    let path = old(name);
    fs::read(&path).unwrap_or_else(|e| panic!("{}: {e}", path.display()))
}

/// The journals that are kept, by the edition that they are of. Each has its four files, and no other stands beside them.
const KEPT: [&str; 2] = ["edition-0", "edition-1"];

fn journals() -> [&'static str; KEPT.len()] {
    let files = fs::read_dir(old("")).unwrap();
    let files = files.map(|entry| entry.unwrap().file_name().into_string().unwrap());
    let mut files: Vec<String> = files.collect();
    files.sort();
    let due = KEPT.map(|name| ["journal", "list", "out", "trace"].map(|e| format!("{name}.{e}")));
    assert_eq!(files, due.concat());
    KEPT
}

fn text(bytes: Vec<u8>) -> String {
    String::from_utf8(bytes).unwrap()
}

fn old_journals_restore_and_go_on(programs: &Programs) {
    let _turn = turn();
    for name in journals() {
        let (journal, trace) = (
            kept(&format!("{name}.journal")),
            kept(&format!("{name}.trace")),
        );
        let expected = text(kept(&format!("{name}.out")));
        let mut model = FileConsole::over(&journal);
        let by_model = format!("restore 0 0\n{}", model.play(&trace));
        assert_eq!(by_model, expected, "{name} by the model");
        let folder = Folder::new();
        let file = folder.at("old.journal");
        fs::write(&file, &journal).unwrap();
        let ran = run(&mut command(&programs.bench(), &[&file]), &trace);
        assert_eq!(ran.text(), expected, "{name}");
        assert_eq!(fs::read(&file).unwrap(), model.file, "{name}");
    }
}

fn old_journals_are_listed_as_they_were(programs: &Programs) {
    let _turn = turn();
    for name in journals() {
        let journal = kept(&format!("{name}.journal"));
        let expected = text(kept(&format!("{name}.list")));
        assert_eq!(text(list(&journal)), expected, "{name} by the model");
        let ran = run(&mut command(&programs.list(), &[]), &journal);
        assert_eq!(ran.text(), expected, "{name}");
    }
}
