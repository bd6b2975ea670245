// The bench sheet, asked of the oracle.
use crate::answer::Answerer;

const A: &str = "1 2 10 2 3 9 1 9 12 10 3 11 5 5 8 8 5 7";

fn asked(lines: &[&str]) -> String {
    let mut answerer = Answerer::default();
    let mut last = String::new();
    for line in lines {
        last = answerer.line(line);
    }
    last
}

// A row merged under a list, as `show` shows it, without the none behind the answer.
fn merged(list: &str, row: &str) -> String {
    let shown = asked(&[
        &format!("row l {list}"),
        "row s 64*0",
        "build l 2097152 s",
        &format!("row r {row}"),
        "row n 40*0",
        "row p 40*0",
        "row h 80*0",
        "merge s r n p h",
        "show r",
    ]);
    let items = shown.split(' ').skip(2);
    let ids: Vec<&str> = items.filter(|item| !item.ends_with("4294967295")).collect();
    ids.join(" ")
}

#[test]
fn rows() {
    assert_eq!(
        asked(&["row l", "row s 64*0", "build l 0 s", "row r", "row n", "row p", "row h", "merge s r n p h"])[..4],
        *"ok 0"
    );
    assert_eq!(merged(A, "7"), "7");
    assert_eq!(merged(A, "1 2"), "10");
    assert_eq!(merged(A, "1 2 3"), "12");
    assert_eq!(merged(A, "5 5 5"), "7");
    assert_eq!(merged(A, "5 5 5 5"), "7 5");
    assert_eq!(merged(A, "1 2 1 2"), "2*10");
    assert_eq!(merged(A, "4 6"), "4 6");
    assert_eq!(merged(&format!("{A} 12 5 20"), "1 2 3 5"), "20");
    assert_eq!(merged(A, "1 2 3 5"), "12 5");
    assert_eq!(merged(&format!("{A} 3 5 6"), "1 2 3 5"), "10 6");
    assert_eq!(merged(&format!("{A} 3 1 12"), "3 1 9"), "12 9");
    assert_eq!(merged(A, "3 1 9"), "3 12");
    assert_eq!(merged(A, "32*5"), "10*7 8");
    assert_eq!(merged(A, "33*5"), "11*7");
}

#[test]
fn slots() {
    let shown = asked(&["row l 1 2 10", "row s 64*0", "build l 0 s", "show s"]);
    assert!(shown.contains(" 4398050705418 "));
    let shown = asked(&["row l 0 0 1 0 1 1 0 2 1", "row s 64*0", "build l 0 s", "show s"]);
    let empty = u64::MAX;
    assert_eq!(shown, format!("s 64 1 14*{empty} 4194305 23*{empty} 2097153 24*{empty}"));
}

#[test]
fn caches() {
    assert_eq!(asked(&["row w 10*0", "insert 0 w 0 1 1 0 0", "insert 1 w 0 2 2 0 0"])[..11], *"refused 9 0");
    let mut lines = vec!["row w 20*0"];
    lines.extend(["insert 0 w 0 1 1 0 0", "insert 1 w 0 2 2 0 0", "insert 2 w 0 3 3 0 0"]);
    assert_eq!(asked(&lines)[..4], *"ok 3");
    lines.push("insert 3 w 0 4 4 0 0");
    assert_eq!(asked(&lines)[..11], *"refused 9 0");
    assert_eq!(asked(&["required_capacity 49151 0"]), "ok 65536");
    assert_eq!(asked(&["required_capacity 49152 0"]), "ok 131072");
}

#[test]
fn queries() {
    let table = ["row l 1 5 9", "row s 64*0", "build l 0 s"];
    assert_eq!(asked(&[&table[..], &["rank s 0 2097157"]].concat()), "refused 3 1");
    assert_eq!(asked(&[&table[..], &["rank s 4194303 2097151"]].concat()), "refused 3 0");
    assert_eq!(asked(&[&table[..], &["rank s 1 5"]].concat()), "ok 9");
}
