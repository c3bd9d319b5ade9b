//! docs/RULES.md: what its tables show is read by the parser, every kind stands in them, and the pictures are those that its commands draw.

mod common;

use std::collections::BTreeSet;
use std::fs;
use std::process::Command;

use barn::names::Book;
use barn::schema::{kinds, Table};
use barn::{fault, parse};

/// What the lines of the tables mention.
const HEAD: &str = "light house = 1, aisle = 2\nverb full = 11 100 %, off = 12\ntext hello \"Good morning\"\ntopic news\nschedule summer\n\
    scene evening = 3\nlamp door = 0/5\ngroup aisle_lamps = 0/2\ninput gate = 0/3/1\ndevice desk = 0/7\npanel front = 0/1\n\
    block fade\nend\nrule night\nend\nrule chicks_in\nend\n";

fn page() -> String {
    fs::read_to_string(common::repository().join("docs/RULES.md")).expect("the page")
}

/// The first cells of the tables below a heading, up to the next heading of its rank.
fn lines_of(page: &str, heading: &str) -> Vec<String> {
    let rank = heading.split(' ').next().unwrap_or("").to_string() + " ";
    let from = page.find(&format!("\n{heading}\n")).unwrap_or_else(|| panic!("no heading {heading}")) + heading.len() + 2;
    let section = page[from..].split(&format!("\n{rank}")).next().unwrap_or("");
    let cell = |line: &str| line.strip_prefix("| `")?.split('`').next().map(str::to_string);
    section.lines().filter_map(cell).collect()
}

fn read(text: &str) -> parse::File {
    parse::file(text, &Book::default()).unwrap_or_else(|faults| panic!("{}", fault::render("page", text, &faults)))
}

/// The kinds of a table that a file's records have; of readings their codes.
fn kinds_of(file: &parse::File, wanted: Table) -> BTreeSet<u32> {
    let mut found = BTreeSet::new();
    file.set.each(|table, record| {
        if table == wanted {
            found.insert(if table == Table::Values { record.word(0) } else { record.kind });
        }
    });
    found
}

fn all_kinds(table: Table) -> BTreeSet<u32> {
    (0..kinds(table).0.len() as u32).collect()
}

#[test]
fn triggers_conditions_and_steps_are_all_there() {
    let page = page();
    let triggers = lines_of(&page, "## Triggers").join("\n");
    assert_eq!(kinds_of(&read(&format!("{HEAD}rule a\n{triggers}\nend\n")), Table::Triggers), all_kinds(Table::Triggers));

    let conditions = lines_of(&page, "## Conditions");
    let first_reading = conditions.iter().position(|line| line == "lamp door level + 10").expect("the readings");
    let ifs: Vec<String> = conditions[..first_reading].iter().map(|line| format!("if {line}")).collect();
    assert_eq!(kinds_of(&read(&format!("{HEAD}rule a\n{}\nend\n", ifs.join("\n"))), Table::Conditions), all_kinds(Table::Conditions));
    let adds: Vec<String> = conditions[first_reading..].iter().map(|line| format!("add x {line}")).collect();
    assert_eq!(kinds_of(&read(&format!("{HEAD}rule a\ndo\n{}\nend\nend\n", adds.join("\n"))), Table::Values), (0..=22).collect());

    let steps = lines_of(&page, "## Steps").into_iter().map(|line| {
        let opens = ["after ", "repeat ", "when "].iter().any(|head| line.starts_with(head));
        if opens { format!("{line}\nend") } else { line }
    });
    let steps: Vec<String> = steps.collect();
    assert_eq!(kinds_of(&read(&format!("{HEAD}rule a\ndo\n{}\nend\nend\n", steps.join("\n"))), Table::Actions), all_kinds(Table::Actions));
}

#[test]
fn declarations_expectations_and_the_whole_file_are_read() {
    let page = page();
    for line in lines_of(&page, "### Declarations") {
        read(&format!("{line}\n"));
    }
    let given = lines_of(&page, "## Expectations");
    assert_eq!(given.len(), 12);
    assert_eq!(read(&format!("{HEAD}expect\n{}\nend\n", given.join("\n"))).expects.len(), 1);
    let fence = page.split("```rules\n").nth(1).and_then(|rest| rest.split("```").next()).expect("a file");
    let file = read(fence);
    assert_eq!((file.set.rules.len(), file.expects.len()), (2, 1));
}

/// The gate runs the expectations of all of them.
#[test]
fn each_example_has_expectations_and_a_picture() {
    let (page, mut seen) = (page(), 0);
    for entry in fs::read_dir(common::repository().join("examples")).expect("the examples") {
        let path = entry.expect("an entry").path();
        if path.extension().is_none_or(|end| end != "rules") {
            continue;
        }
        let name = path.file_name().expect("a name").to_string_lossy().into_owned();
        assert!(common::EXAMPLES.contains(&name.as_str()), "{name}");
        let file = read(&fs::read_to_string(&path).expect("an example"));
        assert!(file.expects.iter().any(|expect| !expect.wants.is_empty()), "{name}");
        let draws = |line: &str| line.contains(&format!("barn day examples/{name} ")) && line.contains("--svg docs/pictures/");
        assert!(page.lines().any(draws), "{name}");
        seen += 1;
    }
    assert_eq!(seen, common::EXAMPLES.len());
}

/// Every picture of the page is one that a command of it draws, and README shows the first.
#[test]
fn the_pictures_are_shown() {
    let readme = fs::read_to_string(common::repository().join("README.md")).expect("README");
    let first: String = readme.lines().take(14).collect::<Vec<_>>().join("\n");
    assert!(first.contains("](docs/pictures/layer-house-day.svg)") && first.contains("    barn day examples/layer-house.rules --sun 07:00-17:00 --svg"));
    let page = page();
    let shown: Vec<&str> = page.split("](pictures/").skip(1).filter_map(|rest| rest.split(')').next()).collect();
    assert!(shown.len() >= 4, "{shown:?}");
    for picture in shown {
        assert!(page.contains(&format!("--svg docs/pictures/{picture}\n")), "{picture}");
    }
}

#[test]
fn the_pictures_are_what_their_commands_draw() {
    let folder = std::path::PathBuf::from(env!("CARGO_TARGET_TMPDIR"));
    let page = page();
    let mut drawn = 0;
    for line in page.lines().filter(|line| line.starts_with("    barn day ") && line.contains("--svg")) {
        let mut args: Vec<String> = line.split_whitespace().skip(1).map(str::to_string).collect();
        let kept = args.pop().expect("a file");
        let fresh = folder.join(format!("fresh-{drawn}.svg"));
        args.push(fresh.to_string_lossy().into_owned());
        let output = Command::new(env!("CARGO_BIN_EXE_barn")).args(&args).current_dir(common::repository()).output().expect("barn runs");
        assert!(output.status.success(), "{line}");
        let (fresh, kept) = (fs::read_to_string(fresh).expect("drawn"), fs::read_to_string(common::repository().join(&kept)).expect("kept"));
        assert!(fresh == kept, "{line} draws another picture");
        drawn += 1;
    }
    assert_eq!(drawn, 4);
}
