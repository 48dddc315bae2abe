//! The demo, committed step by step, with the listings that the proved program prints.
mod common;

use common::Folder;

/// The listings in what the program demo prints, each from its header line on.
fn listings() -> Vec<String> {
    let path = concat!(env!("CARGO_MANIFEST_DIR"), "/../crates/demo/stdout");
    let printed = std::fs::read_to_string(path).unwrap();
    let blocks = printed.split("run view table start end\n").skip(1);
    let listed = |block: &str| {
        let lines = block.lines().take_while(|line| is_view(line));
        let lines: String = lines.map(|line| format!("{line}\n")).collect();
        format!("run view table start end\n{lines}")
    };
    blocks.map(listed).collect()
}

/// A line of a listing has five words, the first two numbers, the third 32 digits.
fn is_view(line: &str) -> bool {
    let words: Vec<_> = line.split(' ').collect();
    let number = |word: &str| word.parse::<u32>().is_ok();
    words.len() == 5 && number(words[0]) && number(words[1]) && words[2].len() == 32
}

#[test]
fn step_by_step() {
    let listings = listings();
    assert_eq!(listings.len(), 4);
    let folder = Folder::new();
    folder.run(&["list", "image.txt"]).prints(&listings[0]);
    folder
        .run(&["make", "image", "image.txt", "-o", "now.bin"])
        .prints("");
    let jobs = ["half_way.txt", "further.txt", "completed.txt"];
    for (job, listing) in jobs.iter().zip(&listings[1..]) {
        folder
            .run(&["commit", "now.bin", job, "-o", "now.bin", "--list"])
            .prints(listing);
        folder.run(&["list", "now.bin"]).prints(listing);
    }
}

/// The same with texts alone.
#[test]
fn in_texts() {
    let listings = listings();
    let folder = Folder::new();
    for (place, job) in ["half_way.txt", "further.txt", "completed.txt"]
        .iter()
        .enumerate()
    {
        folder
            .run(&["commit", "image.txt", job, "-o", "image.txt"])
            .prints("");
        folder
            .run(&["list", "image.txt"])
            .prints(&listings[place + 1]);
    }
    let after = String::from_utf8(folder.get("image.txt")).unwrap();
    assert!(
        after.ends_with("run 9\n"),
        "run 9 has no views left: {after}"
    );
}
