//! Pictures of single images at their edges.
use super::samples::{table, whole};
use super::{drawn, of_image, refused, rows, svg};
use bilqarush::typed::{Image, Range, Run, Stop, Table, TableId, View};

fn one_run(views: impl IntoIterator<Item = View>) -> Image {
    Image::new([Run::new(7, views)])
}

fn visible(table: Table, range: Range) -> View {
    whole(table).with_visible(range)
}

#[test]
fn an_image_without_runs() {
    let text = drawn(&Image::default());
    assert!(text.starts_with("the image\n\nno runs\n\nKeys"), "{text}");
}

#[test]
fn a_run_without_views() {
    let image = Image::new([
        Run::new(7, []),
        Run::new(4_294_967_295, [whole(table(1, "a", "c"))]),
    ]);
    let expected = ["run 7             no views", "run 4294967295    [=1=====]"];
    let text = drawn(&image);
    assert_eq!(rows(&text), expected);
}

#[test]
fn views_that_overlap_stand_in_further_lines() {
    let open = |id, first| whole(Table::new(TableId(id), first));
    let image = one_run([
        open(1, "a"),
        open(2, "b"),
        whole(table(3, "c", "d")),
        open(4, "e"),
    ]);
    let expected = [
        "run 7           [=1====================================>",
        "                .       [=2============================>",
        "                .       .       [=3=====]       [=4====>",
    ];
    let text = drawn(&image);
    assert_eq!(rows(&text), expected);
}

#[test]
fn a_bound_stands_in_its_column_or_beside_it() {
    let image = one_run([
        visible(table(1, "a", "z"), Range::new(.."b")),
        visible(table(2, "a", "z"), Range::new("b"..="c")),
        visible(table(3, "d", "z"), Range::new("d".."e")),
        whole(table(4, "e", "e")),
    ]);
    let text = drawn(&image);
    let lines: Vec<&str> = text.lines().collect();
    let expected = [
        "                a       b       c       d       e",
        "                |       |       |       |       |",
        "run 7           [=1====)[=2=====]       [=3====)*4",
    ];
    assert_eq!(lines[2..5], expected);
}

#[test]
fn keys_that_are_neighbours() {
    let image = one_run([
        visible(table(1, "a", "z"), Range::new(.."a\0")),
        whole(table(2, "a\0", "a\0")),
        whole(table(3, "a\0\0", "b")),
    ]);
    let text = drawn(&image);
    let lines: Vec<&str> = text.lines().collect();
    let expected = [
        "                a       0x6100  #1      b",
        "                |       |       |       |",
        "run 7           [=1====)*2      [=3=====]",
    ];
    assert_eq!(lines[2..5], expected);
    assert!(text.ends_with("\n#1 = key 0x610000\n"), "{text}");
}

#[test]
fn each_key_has_a_name_of_its_own() {
    let long = "k".repeat(1024);
    let keys: [&[u8]; 12] = [
        b"",
        b"\0",
        b" ",
        b"\"\"",
        b"#1",
        b"-",
        b"0x00",
        b"a b",
        b"a\"b",
        long.as_bytes(),
        "\u{e9}".as_bytes(),
        b"\xFF",
    ];
    let views = keys
        .iter()
        .enumerate()
        .map(|(place, key)| whole(table(place as u128, key, key)));
    let text = drawn(&one_run(views));
    let lines: Vec<&str> = text.lines().collect();
    let columns = lines[3]
        .match_indices('|')
        .map(|(column, _)| &lines[2][column..]);
    // A name with a space in it stands in quotes.
    let names: Vec<&str> = columns
        .map(|rest| match rest.strip_prefix('"') {
            Some(inner) => &rest[..inner.find("\" ").unwrap_or(inner.len() - 1) + 2],
            None => rest.split(' ').next().unwrap(),
        })
        .collect();
    let expected = [
        "\"\"", "0x00", "\" \"", "\"\"\"\"", "\"#1\"", "\"-\"", "\"0x00\"", "\"a b\"", "a\"b",
        "#1", "0xc3a9", "0xff",
    ];
    assert_eq!(names, expected);
    assert!(text.ends_with(&format!("\n#1 = key {long}\n")));
}

#[test]
fn long_ids_are_numbered() {
    let id = 0x0190_a1b2_c3d4_0000_0000_0000_0000_0007;
    let image = one_run([whole(table(3, "a", "b")), whole(table(id, "c", "d"))]);
    let text = drawn(&image);
    assert_eq!(rows(&text), ["run 7           [=T1====]       [=T2====]"]);
    let legend = "T1 = table 00000000000000000000000000000003\nT2 = table 0190a1b2c3d400000000000000000007\n";
    assert!(text.ends_with(legend), "{text}");
}

#[test]
fn ids_of_four_digits_always_fit() {
    let views = (0..60u8).map(|place| {
        whole(table(
            0xab00 + u128::from(place),
            [place + 33],
            [place + 33],
        ))
    });
    let text = drawn(&one_run(views));
    let points = (0..60).map(|place| format!("*ab{place:02x}"));
    assert_eq!(
        rows(&text),
        [format!(
            "run 7           {}",
            points.collect::<Vec<_>>().join(" ")
        )]
    );
}

#[test]
fn a_title_stays_in_its_line() {
    let image = Image::default();
    let mut picture = of_image(&image);
    picture.scenes[0].title = "a\nb\x1b[2J <&>\"'";
    let text = super::text(&picture).unwrap();
    assert!(text.starts_with("a b [2J <&>\"'\n\n"), "{text}");
    assert!(svg(&picture)
        .unwrap()
        .contains(">a b [2J &lt;&amp;&gt;&quot;&#39;</text>"));
}

#[test]
fn refused_images_are_refused() {
    let twice = Image::new([Run::new(7, []), Run::new(7, [])]);
    assert_eq!(refused(&of_image(&twice)), Stop::Order);
    let upside_down = one_run([whole(table(1, "b", "a"))]);
    assert_eq!(refused(&of_image(&upside_down)), Stop::TableRange);
    let too_long = one_run([whole(table(1, [0; 1025], [0; 1025]))]);
    assert_eq!(refused(&of_image(&too_long)), Stop::Ceiling);
}
