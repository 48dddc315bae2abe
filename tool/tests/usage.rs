//! Commands that are not called as their usage line has it.
mod common;

use bilqarush_tool::commands::ALL;
use common::Folder;

/// Each row is a command with `|` between its arguments, then what it says.
const ROWS: &str = "
    list|a|b => there is an argument too many: b
    list|--none => there is no option --none
    list|--text=1 => --text takes no value
    list|--text|--text => --text is given twice
    select => an argument is missing
    select|anchors.txt => --parts is needed
    select|anchors.txt|--parts => --parts needs a value, N
    select|anchors.txt|--parts|-1 => --parts is a number from 0 on, not -1
    select|anchors.txt|--parts|+1 => --parts is a number from 0 on, not +1
    sample|index.txt => --data-end is needed
    check|images => KIND is one of image, job, index, indexes, anchors, plan, range, not images
    make => an argument is missing
    explain => an argument is missing
    explain|commit|image.txt => an argument is missing
    effective|image.txt|0 => RUN and VIEW are needed
    effective|image.txt|x|0 => RUN is a number from 0 on, not x
    size|image.txt|0|0|0 => there is an argument too many: 0
    compare|a => two keys are needed
    compare|a|- => a key (bare, \"quoted\" or 0x..) was expected, not -
    compare|a|\"b => a \" was expected that ends the quoted key
    contains|[a c) => RANGE is two words, KEY one
    contains|[a|c|b => a range such as [a c), (a c], [a - or - c) was expected, not [a c
    subtract|[a c) => INTERVAL and RANGE are two words each
    prefix => KEY is one word, RANGE two
    lookup views|image.txt|0|[a c) d => a range such as [a c), (a c], [a - or - c) was expected, not [a c) d
    lookup key|index.txt|a b => KEY is one word
    lookup meets|image.txt|0|0|c|- - => END is a key and a bracket, as c) or c], or -, not c
    lookup meets|image.txt|0|0|- -|- - => END is one word, RANGE two
";

#[test]
fn of_a_command() {
    let folder = Folder::new();
    for row in ROWS.trim().lines() {
        let (command, what) = row.trim().split_once(" => ").unwrap();
        let (name, rest) = command.split_once('|').unwrap_or((command, ""));
        let args = name.split(' ').chain(rest.split('|'));
        let args: Vec<_> = args.filter(|arg| !arg.is_empty()).collect();
        let usage = ALL
            .iter()
            .find(|command| command.name == name)
            .unwrap()
            .usage;
        let message = format!("bilqarush: {what}\nusage: bilqarush {name} {usage}\n");
        folder.run(&args).fails(2, &message);
    }
}

#[test]
fn without_a_command() {
    let folder = Folder::new();
    let bare = folder.run(&[]);
    assert!(bare
        .err()
        .starts_with("bilqarush: a command is missing\nusage: bilqarush COMMAND"));
    assert_eq!((bare.out(), bare.status()), ("", 2));
    let unknown = "bilqarush: there is no command lit: `bilqarush --help` lists all\n";
    for args in [&["lit"][..], &["lit", "--help"], &["help", "lit"]] {
        folder.run(args).fails(2, unknown);
    }
    let group = "bilqarush: lookup needs one of views, overlaps, keeps, reads, meets, key, blocks after it\n";
    folder.run(&["lookup"]).fails(2, group);
    folder.run(&["lookup", "it"]).fails(2, group);
}
