//! The command draw. What a picture shows is tested beside its module, and the demo's in guide.rs.
mod common;

use common::Folder;

#[test]
fn a_job_is_drawn_before_and_after() {
    let done = Folder::new().run(&["draw", "image.txt", "half_way.txt"]);
    assert_eq!(done.status(), 0);
    let titles = [
        "before the commit\n\n",
        "\nafter the commit\n\n",
        "\njob: runs 7, 9 into run 7\n\n",
    ];
    let places = titles.map(|title| done.out().find(title));
    assert!(places.is_sorted() && places[0] == Some(0), "{places:?}");
}

/// After each of several jobs run 7 has the tables that the listing of the same commits has.
#[test]
fn jobs_are_committed_one_after_the_other() {
    let folder = Folder::new();
    let jobs = ["half_way.txt", "further.txt", "completed.txt"];
    let done = folder.run(&["draw", "image.txt", jobs[0], jobs[1], jobs[2]]);
    assert_eq!(done.status(), 0);
    let last = done.out().rsplit("after completed.txt\n").next().unwrap();
    assert!(last.contains("\nrun 9           no views\n"), "{last}");
    assert_eq!(done.out().matches("\nafter ").count(), 3);
    assert!(!done.out().contains("durable"));
}

#[test]
fn a_file_gets_the_picture_and_nothing_else_changes() {
    let folder = Folder::new();
    let drawn = folder.run(&["draw", "image.txt", "half_way.txt", "--svg"]);
    let before = folder.names();
    folder
        .run(&["draw", "image.txt", "half_way.txt", "--svg", "-o", "a.svg"])
        .prints("");
    assert_eq!(folder.get("a.svg"), drawn.out().as_bytes());
    assert!(drawn.out().starts_with("<svg "));
    let now = folder.names();
    assert_eq!(now.len(), before.len() + 1);
}

#[test]
fn what_is_refused_is_not_drawn() {
    let folder = Folder::new();
    folder.put("bad.txt", "image\nrun 7\nview 1 table 1 c a\n");
    let stop_5 = "bilqarush: bad.txt: stop 5 (TableRange): a last key is below its first key, a visible range starts \
                  excluded, or it does not meet its table's own range\n\
                  line 3: image, run 0, view 0: last key, at byte 67: it is below the first key\n";
    folder.run(&["draw", "bad.txt"]).fails(1, stop_5);
    folder
        .run(&["draw", "bad.txt", "half_way.txt"])
        .fails(1, stop_5);
    folder.put("job.txt", "job destination 7 sources 9\n");
    folder
        .run(&["draw", "image.txt", "job.txt", "--svg", "-o", "a.svg"])
        .fails(
            1,
            "bilqarush: job.txt: stop 8 (DestinationNotSource): the destination is not a source\n\
         line 1: job: destination, at byte 0: no source has this id\n",
        );
    assert!(!folder.names().contains(&"a.svg".to_string()));
    folder.put("late.txt", "job destination 7 sources 7 8\n");
    let late = folder.run(&["draw", "image.txt", "half_way.txt", "late.txt"]);
    assert_eq!(late.status(), 1);
    assert!(
        late.err()
            .starts_with("bilqarush: late.txt: stop 9 (NotInImage)"),
        "{}",
        late.err()
    );
}
