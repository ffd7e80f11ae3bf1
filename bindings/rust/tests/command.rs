//! The command: its lines, its status, and what it says where something is wrong.
use std::path::PathBuf;
use std::process::{Command, Output};

fn folder(name: &str) -> PathBuf {
    let path = PathBuf::from(env!("CARGO_TARGET_TMPDIR")).join(name);
    std::fs::create_dir_all(&path).unwrap();
    path
}

fn run(at: &PathBuf, words: &str) -> Output {
    let words = words.split_whitespace();
    Command::new(env!("CARGO_BIN_EXE_funnelcress")).args(words).current_dir(at).output().unwrap()
}

/// What is printed with status 0.
fn printed(at: &PathBuf, words: &str) -> String {
    let output = run(at, words);
    assert!(output.status.success(), "{words}: {}", String::from_utf8_lossy(&output.stderr));
    String::from_utf8(output.stdout).unwrap()
}

/// Status, standard output and standard error of a run that fails.
fn failed(at: &PathBuf, words: &str) -> (i32, String, String) {
    let output = run(at, words);
    assert!(!output.status.success(), "{words}");
    let text = |bytes: Vec<u8>| String::from_utf8(bytes).unwrap();
    (output.status.code().unwrap(), text(output.stdout), text(output.stderr))
}

/// Two panes, and rays that meet both, none, and are refused.
fn house(name: &str) -> PathBuf {
    let at = folder(name);
    std::fs::write(at.join("panes.txt"), "0 0 0 1 1 1 first\n# a remark\n2 0 0 3 1 1\n").unwrap();
    std::fs::write(at.join("rays.txt"), "-1 .5 .5 1 0 0 0 inf\n-1, 5, 5, 1, 0, 0, 0, inf\n").unwrap();
    std::fs::write(at.join("bad.txt"), "-1 .5 .5 1 0 0 0 inf\n-1 .5 .5 1 0 0 0 nan\n").unwrap();
    assert_eq!(printed(&at, "tree panes.txt -o house.tree"), "2 leaves\n");
    assert_eq!(printed(&at, "convert house.tree -o house"), "converted 1 nodes 2 positions\n");
    at
}

#[test]
fn lines() {
    let at = house("lines");
    assert_eq!(printed(&at, "check house.record"), "sound 0\n");
    assert_eq!(printed(&at, "any-hit house.record rays.txt"), "0 tests 1 positions 1 0\n1 tests 1 positions\n");
    let files = "house.record house.list panes.txt rays.txt";
    assert_eq!(printed(&at, &format!("closest {files}")), "0 tests 1 hit 0 pane 0 at 1\n1 tests 1 none\n");
    assert_eq!(printed(&at, &format!("miss {files} --threads 3")), "0 tests 1 blocked\n1 tests 1 missed\n");
}

#[test]
fn json() {
    let at = house("json");
    assert_eq!(printed(&at, "check house.record --json"), "{\"sound\":true,\"level\":0}\n");
    let any = printed(&at, "any-hit house.record rays.txt --json");
    assert_eq!(any, "{\"ray\":0,\"tests\":1,\"positions\":[1,0]}\n{\"ray\":1,\"tests\":1,\"positions\":[]}\n");
    let closest = printed(&at, "closest house.record house.list panes.txt rays.txt --json");
    let hit = "{\"ray\":0,\"tests\":1,\"position\":0,\"pane\":0,\"distance\":1}";
    assert_eq!(closest, format!("{hit}\n{{\"ray\":1,\"tests\":1,\"position\":null}}\n"));
}

#[test]
fn packed() {
    let at = house("packed");
    let ray = [-1.0f32, 0.5, 0.5, 1.0, 0.0, 0.0, 0.0, f32::INFINITY];
    let bytes: Vec<u8> = ray.iter().flat_map(|x| x.to_le_bytes()).collect();
    std::fs::write(at.join("rays.f32"), &bytes).unwrap();
    assert_eq!(printed(&at, "any-hit house.record rays.f32"), "0 tests 1 positions 1 0\n");
    std::fs::write(at.join("cut.f32"), &bytes[..28]).unwrap();
    assert!(failed(&at, "any-hit house.record cut.f32").2.contains("groups of 8 floats"));
}

#[test]
fn refusals() {
    let at = house("refusals");
    let (status, out, err) = failed(&at, "any-hit house.record bad.txt");
    assert_eq!((status, out.as_str()), (1, "0 tests 1 positions 1 0\n1 refused 9\n"));
    assert!(err.contains("ray 1: refused 9: ") && err.contains("1 rays were refused"));
    for (words, number) in [("convert house.tree -o x --limit 4", 3), ("convert house.tree -o x --order 2", 3)] {
        let (status, _, err) = failed(&at, words);
        assert!(status == 1 && err.contains(&format!("refused {number}: ")) && !at.join("x.record").exists());
    }
    let mut tree = std::fs::read(at.join("house.tree")).unwrap();
    tree[12 + 24 + 3] = 0x80;
    std::fs::write(at.join("broken.tree"), &tree).unwrap();
    assert!(failed(&at, "convert broken.tree -o x").2.contains("refused 5: "));
    std::fs::write(at.join("short.tree"), &tree[..tree.len() - 4]).unwrap();
    assert!(failed(&at, "convert short.tree -o x").2.contains("refused 1: "));
}

#[test]
fn damaged_records() {
    let at = house("damaged");
    let mut record = std::fs::read(at.join("house.record")).unwrap();
    record[4 + 12] = 0;
    std::fs::write(at.join("bad.record"), &record).unwrap();
    let (status, out, err) = failed(&at, "check bad.record");
    assert!(status == 1 && out == "unsound\n" && err.contains("not sound"));
    assert_eq!(failed(&at, "any-hit bad.record rays.txt").1, "");
    std::fs::write(at.join("cut.record"), &record[..80]).unwrap();
    assert_eq!(failed(&at, "check cut.record").1, "refused 1\n");
    record[..4].copy_from_slice(&70_000u32.to_le_bytes());
    std::fs::write(at.join("large.record"), &record).unwrap();
    assert_eq!(failed(&at, "check large.record").1, "refused 2\n");
}

#[test]
fn words() {
    let at = house("words");
    for words in ["", "no-such", "check", "check a b", "convert house.tree", "tree panes.txt -o", "check --no-such x"] {
        let (status, out, err) = failed(&at, words);
        assert!(status == 2 && out.is_empty() && err.contains("usage: "), "{words}");
    }
    assert!(failed(&at, "join house.tree house.tree -o x").2.contains("--panes is needed"));
    for name in ["tree", "join", "convert", "check", "any-hit", "closest", "miss", "report"] {
        assert!(printed(&at, &format!("{name} --help")).contains("example: "));
        assert!(printed(&at, "--help").contains(name));
    }
    assert_eq!(failed(&at, "check no-such-file").0, 1);
    assert!(failed(&at, "any-hit house.record panes.txt").2.contains("line 1: first is no number"));
    let report = |losses| failed(&at, &format!("report house.record house.list {losses} rays.txt")).2;
    assert!(report("panes.txt").contains("line 1: one number is needed, more are there"));
    std::fs::write(at.join("half.txt"), "3000\n0.5 second\n").unwrap();
    assert!(report("half.txt").contains("line 2: 0.5 is no whole number"));
}

/// A disk that is full is seen.
#[test]
fn a_full_disk() {
    let at = house("full");
    let full = std::fs::File::options().write(true).open("/dev/full").unwrap();
    let mut command = Command::new(env!("CARGO_BIN_EXE_funnelcress"));
    let ended = command.args(["check", "house.record"]).current_dir(&at).stdout(full).output().unwrap();
    assert_eq!(ended.status.code(), Some(1));
    assert!(String::from_utf8_lossy(&ended.stderr).contains("standard output: No space left"));
    assert!(failed(&at, "tree panes.txt -o /dev/full").2.contains("/dev/full: No space left"));
}

#[test]
fn joins() {
    let at = house("joins");
    std::fs::write(at.join("annex.txt"), "4 0 0 5 1 1\n").unwrap();
    std::fs::write(at.join("none.txt"), "# no panes\n").unwrap();
    std::fs::write(at.join("all.txt"), "0 0 0 1 1 1\n2 0 0 3 1 1\n4 0 0 5 1 1\n").unwrap();
    printed(&at, "tree annex.txt -o annex.tree --limit 1 --order 0");
    printed(&at, "tree none.txt -o none.tree");
    assert_eq!(printed(&at, "join house.tree annex.tree --panes 2 -o both.tree"), "3 leaves\n");
    assert_eq!(printed(&at, "convert both.tree -o both"), "converted 1 nodes 3 positions\n");
    assert_eq!(printed(&at, "check both.record"), "sound 0\n");
    std::fs::write(at.join("from_4.txt"), "3.5 .5 .5 1 0 0 0 inf\n").unwrap();
    let nearest = printed(&at, "closest both.record both.list all.txt from_4.txt");
    assert!(nearest.ends_with(" pane 2 at 0.5\n"), "{nearest}");
    let head = |name: &str| std::fs::read(at.join(name)).unwrap()[..12].to_vec();
    assert_eq!(head("both.tree"), [3, 3, 1].map(u32::to_le_bytes).as_flattened());
    printed(&at, "join annex.tree house.tree --panes 1 -o other.tree");
    assert_eq!(head("other.tree"), [3, 1, 0].map(u32::to_le_bytes).as_flattened());
    printed(&at, "join house.tree none.tree --panes 2 -o same.tree --limit 2 --order 0");
    let (same, house) = (std::fs::read(at.join("same.tree")).unwrap(), std::fs::read(at.join("house.tree")).unwrap());
    assert!(same[12..] == house[12..] && head("same.tree") == [2, 2, 0].map(u32::to_le_bytes).as_flattened());
}

/// A refused join writes no file.
#[test]
fn refused_joins() {
    let at = house("refused_joins");
    let mut tree = std::fs::read(at.join("house.tree")).unwrap();
    std::fs::write(at.join("short.tree"), &tree[..tree.len() - 4]).unwrap();
    tree[12 + 24 + 3] = 0x80;
    std::fs::write(at.join("broken.tree"), &tree).unwrap();
    for (words, number) in [
        ("house.tree short.tree --panes 2", 1),
        ("broken.tree short.tree --panes 2", 1),
        ("house.tree broken.tree --panes 2", 5),
        ("broken.tree house.tree --panes 4294967295", 5),
        ("house.tree house.tree --panes 4294967295", 13),
    ] {
        let (status, out, err) = failed(&at, &format!("join {words} -o x.tree"));
        assert_eq!((status, out.as_str()), (1, ""), "{words}");
        assert!(err.contains(&format!("refused {number}: ")) && !at.join("x.tree").exists(), "{words}: {err}");
    }
}

/// A house with losses, and a ray that meets both panes, one that meets the first alone, and one that meets none.
fn losses(name: &str) -> PathBuf {
    let at = house(name);
    std::fs::write(at.join("losses.txt"), "3000 first\n# a remark\n500\n").unwrap();
    let rays = "-1 .5 .5 1 0 0 0 inf\n-1 .5 .5 1 0 0 0 2.5\n-1 5 5 1 0 0 0 inf\n";
    std::fs::write(at.join("three.txt"), rays).unwrap();
    at
}

const TOTALS: &str = "ray 0 3500\nray 1 3000\nray 2 0\npane 0 6000\npane 1 500\ntests 3\n";

#[test]
fn reports() {
    let at = losses("reports");
    let words = "report house.record house.list losses.txt three.txt";
    for more in ["", "--threads 1", "--threads 2", "--threads 9", "--panes 2"] {
        assert_eq!(printed(&at, &format!("{words} {more}")), TOTALS);
    }
    let lines = printed(&at, &format!("{words} --json"));
    let rays = "{\"ray\":0,\"loss\":3500}\n{\"ray\":1,\"loss\":3000}\n{\"ray\":2,\"loss\":0}\n";
    assert_eq!(lines, format!("{rays}{{\"pane\":0,\"loss\":6000}}\n{{\"pane\":1,\"loss\":500}}\n{{\"tests\":3}}\n"));
    let packed: Vec<u8> = [3000u32, 500].into_iter().flat_map(u32::to_le_bytes).collect();
    std::fs::write(at.join("losses.u32"), packed).unwrap();
    assert_eq!(printed(&at, "report house.record house.list losses.u32 three.txt"), TOTALS);
    std::fs::write(at.join("none.txt"), "# no rays\n").unwrap();
    assert_eq!(printed(&at, "report house.record house.list losses.txt none.txt"), "pane 0 0\npane 1 0\ntests 0\n");
}

/// A refused report prints no line.
#[test]
fn refused_reports() {
    let at = losses("refused_reports");
    std::fs::write(at.join("great.txt"), "3000\n1000001\n").unwrap();
    std::fs::write(at.join("one.txt"), "3000\n").unwrap();
    std::fs::write(at.join("many.txt"), "-1 .5 .5 1 0 0 0 inf\n".repeat(65_537)).unwrap();
    for (words, number) in [
        ("great.txt three.txt", 12),
        ("losses.txt three.txt --panes 3", 12),
        ("one.txt three.txt", 10),
        ("losses.txt bad.txt", 9),
        ("losses.txt many.txt", 2),
        ("losses.txt many.txt --threads 4", 2),
    ] {
        let (status, out, err) = failed(&at, &format!("report house.record house.list {words}"));
        assert_eq!((status, out.as_str()), (1, ""), "{words}");
        assert!(err.contains(&format!("refused {number}: ")), "{words}: {err}");
    }
    let mut record = std::fs::read(at.join("house.record")).unwrap();
    record[4 + 12] = 0;
    std::fs::write(at.join("bad.record"), &record).unwrap();
    let (status, out, err) = failed(&at, "report bad.record house.list losses.txt three.txt");
    assert!(status == 1 && out.is_empty() && err.contains("not sound"));
}

/// The house with a screen that is drawn from quarter 40 to 55, and what a report at quarter hours is given besides.
fn screens(name: &str) -> (PathBuf, String) {
    let at = losses(name);
    std::fs::write(at.join("spans.txt"), "0 95 first\n# a remark\n40 55 screen\n").unwrap();
    std::fs::write(at.join("quarters.txt"), "40\n40 at ten\n40\n").unwrap();
    let converted = printed(&at, "convert house.tree -o timed --spans spans.txt --order 0");
    assert_eq!(converted, "converted 1 nodes 2 positions\n");
    let report = "report timed.record timed.list losses.txt three.txt --side timed.side --spans spans.txt";
    (at, report.into())
}

#[test]
fn quarter_hours() {
    let (at, report) = screens("quarter_hours");
    assert_eq!(std::fs::read(at.join("timed.side")).unwrap()[..4], [0, 95, 40, 55]);
    assert!(!at.join("house.side").exists());
    for more in ["", "--threads 1", "--threads 3", "--panes 2"] {
        assert_eq!(printed(&at, &format!("{report} --quarters quarters.txt {more}")), TOTALS);
    }
    std::fs::write(at.join("early.u8"), [39, 55, 56]).unwrap();
    let early = "ray 0 3000\nray 1 3000\nray 2 0\npane 0 6000\npane 1 0\ntests 3\n";
    assert_eq!(printed(&at, &format!("{report} --quarters early.u8")), early);
    std::fs::write(at.join("spans.u8"), [0, 95, 40, 55]).unwrap();
    printed(&at, "convert house.tree -o packed --spans spans.u8 --order 0");
    for kind in ["record", "list", "side"] {
        let read = |name: &str| std::fs::read(at.join(format!("{name}.{kind}"))).unwrap();
        assert_eq!(read("packed"), read("timed"));
    }
}

/// What is wrong with spans, side table or quarter hours is said, and no file or line is written.
#[test]
fn refused_quarter_hours() {
    let (at, report) = screens("refused_quarter_hours");
    std::fs::write(at.join("swapped.txt"), "0 95\n55 40\n").unwrap();
    std::fs::write(at.join("late.txt"), "0 95\n40 96\n").unwrap();
    for words in ["swapped.txt", "late.txt", "spans.txt --panes 3"] {
        let (status, out, err) = failed(&at, &format!("convert house.tree -o x --spans {words}"));
        assert!(status == 1 && out.is_empty() && err.contains("refused 14: "), "{words}: {err}");
        assert!(["record", "list", "side"].iter().all(|kind| !at.join(format!("x.{kind}")).exists()));
    }
    std::fs::write(at.join("short.u8"), [40, 40]).unwrap();
    std::fs::write(at.join("over.u8"), [40, 96, 40]).unwrap();
    std::fs::write(at.join("cut.side"), [0; 15]).unwrap();
    let cut = report.replace("timed.side", "cut.side");
    for (words, number) in [
        (format!("{report} --quarters short.u8"), 1),
        (format!("{report} --quarters over.u8"), 14),
        (format!("{cut} --quarters quarters.txt"), 14),
    ] {
        let (status, out, err) = failed(&at, &words);
        assert!(status == 1 && out.is_empty() && err.contains(&format!("refused {number}: ")), "{words}: {err}");
    }
    let (status, _, err) = failed(&at, &report);
    assert!(status == 2 && err.contains("--side, --spans and --quarters are needed together"));
    for (text, said) in [
        ("40", "line 1: 2 numbers are needed, 1 are there"),
        ("0 95 40", "line 1: 2 numbers are needed, more are there"),
        ("0 256", "line 1: 256 is no whole number of 8 bits"),
    ] {
        std::fs::write(at.join("odd.txt"), text).unwrap();
        assert!(failed(&at, "convert house.tree -o x --spans odd.txt").2.contains(said));
    }
    std::fs::write(at.join("odd.u8"), [0, 95, 40]).unwrap();
    assert!(failed(&at, "convert house.tree -o x --spans odd.u8").2.contains("no multiple of 2 bytes"));
}

/// The worked house and its corridor as one model: a ray up from the corridor's floor meets the last pane of both.
#[test]
fn the_worked_corridor() {
    let at = folder("worked_corridor");
    let house = concat!(env!("CARGO_MANIFEST_DIR"), "/../../examples/house");
    let text = |name: &str| std::fs::read_to_string(format!("{house}/{name}.txt")).unwrap();
    std::fs::write(at.join("site.txt"), text("house") + &text("corridor")).unwrap();
    std::fs::write(at.join("up.txt"), "14 4 1 0 0 1 0 inf\n").unwrap();
    assert_eq!(printed(&at, &format!("tree {house}/house.txt -o house.tree")), "42 leaves\n");
    assert_eq!(printed(&at, &format!("tree {house}/corridor.txt -o corridor.tree")), "3 leaves\n");
    assert_eq!(printed(&at, "join house.tree corridor.tree --panes 42 -o site.tree"), "45 leaves\n");
    assert_eq!(printed(&at, "convert site.tree -o site"), "converted 5 nodes 45 positions\n");
    let nearest = printed(&at, "closest site.record site.list site.txt up.txt");
    assert_eq!(nearest, "0 tests 1 hit 6 pane 44 at 1.4000001\n");
}

/// The worked house's report has a line for each ray and each box, and the losses of both add up to the same.
#[test]
fn the_worked_house() {
    let at = folder("worked_house");
    let house = concat!(env!("CARGO_MANIFEST_DIR"), "/../../examples/house");
    printed(&at, &format!("tree {house}/house.txt -o house.tree"));
    printed(&at, "convert house.tree -o house");
    let words = format!("report house.record house.list {house}/losses.txt {house}/rays.txt");
    let lines = printed(&at, &words);
    let losses = |kind: &str| -> Vec<u64> {
        let of_kind = lines.lines().filter_map(|line| line.strip_prefix(kind)?.split(' ').nth(1));
        of_kind.map(|loss| loss.parse().unwrap()).collect()
    };
    let (rays, panes) = (losses("ray "), losses("pane "));
    assert_eq!((rays.len(), panes.len()), (36, 42));
    assert_eq!(rays.iter().sum::<u64>(), panes.iter().sum());
    assert!(rays.iter().all(|loss| *loss > 0));
    assert_eq!(printed(&at, &format!("{words} --threads 1")), printed(&at, &format!("{words} --threads 5")));
}

/// The worked house with its screens drawn around noon alone: the rays of the morning and the afternoon lose nothing to them.
#[test]
fn the_worked_screens() {
    let at = folder("worked_screens");
    let house = concat!(env!("CARGO_MANIFEST_DIR"), "/../../examples/house");
    printed(&at, &format!("tree {house}/house.txt -o house.tree"));
    let converted = printed(&at, &format!("convert house.tree -o house --spans {house}/spans.txt"));
    assert_eq!(converted, "converted 4 nodes 42 positions\n");
    let report = format!("report house.record house.list {house}/losses.txt {house}/rays.txt");
    let hours = format!("--side house.side --spans {house}/spans.txt --quarters {house}/quarters.txt");
    let lines = printed(&at, &format!("{report} {hours}"));
    assert!(lines.starts_with("ray 0 5610\nray 1 "), "{lines}");
    assert!(lines.contains("\npane 39 15490\npane 40 0\n") && lines.ends_with("\ntests 111\n"), "{lines}");
    assert!(printed(&at, &report).starts_with("ray 0 7159\n"));
    for kind in ["ray ", "pane "] {
        let of_kind = lines.lines().filter_map(|line| line.strip_prefix(kind)?.split(' ').nth(1)?.parse::<u64>().ok());
        assert_eq!(of_kind.sum::<u64>(), 105_346);
    }
}
