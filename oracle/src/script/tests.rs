use super::table::{self, LIST_WORDS};
use super::*;

const SCRIPT: &str = include_str!("../../../examples/wait.script");
const EXPECTED: &str = include_str!("../../../examples/wait.expected");
/// Rule 5 of the example, on one line.
const LOAD: &str = "load 0 5 1 0 0 0 0 0 0 0 3 0 0 0 0 0 0 21 7 0 0 0 0 0 0 23 1000 0 0 0 0 0 0 \
                    21 9 0 0 0 0 0 0 8 0 1 0 0 0 16 16 16 16 40 40 40\n";
const AT_0: &str = "0 0 0 0 0 0 0 0 1 0 0 0 0 0";

fn played(lines: &[&str]) -> String {
    play(&format!("{LOAD}{}\n", lines.join("\n")))
}

#[test]
fn the_play_example_prints_the_lines_of_document_01() {
    assert_eq!(play(SCRIPT), EXPECTED);
    assert_eq!(play(&SCRIPT.replace('\n', "\r\n")), EXPECTED);
}

#[test]
fn each_error_names_its_line_and_play_goes_on() {
    let text = "fly 1\n\n# comment\nnew 18446744073709551616\nrun 4294967296 0\nload\nrun 5\n\
                deadline 1\nnew 0 0\nenable 5 2\ntick 1 x\npoke 1\ntick -1\npeek +1\nsize\n\
                lend 1\ntick \u{2028}\nload 0 1 2 4294967296 x\nrun 5 9999999999\nrun 5 x\n\
                new x\nunload 1 x\npoke 16384 0\npeek 16384\nlend 24577 0\nlend 0 327681\n\
                NEW 0\nnew\u{b}0\ndeadline # comment\n";
    let expected = "line 1: no such call\n\
        line 4: new: time does not fit into 64 bits\n\
        line 5: run: rule does not fit into 32 bits\n\
        line 6: load: time is missing\n\
        line 7: run: dry mark is missing\n\
        line 8: deadline: a word too many\n\
        line 9: new: a word too many\n\
        line 10: enable: mark is neither 0 nor 1\n\
        line 11: tick: word 1 is no decimal number\n\
        line 12: poke: word is missing\n\
        line 13: tick: word 0 is no decimal number\n\
        line 14: peek: place is no decimal number\n\
        line 15: size: number of words is missing\n\
        line 16: lend: number of effect words is missing\n\
        line 17: tick: word 0 is no decimal number\n\
        line 18: load: word 2 does not fit into 32 bits\n\
        line 19: run: dry mark is neither 0 nor 1\n\
        line 20: run: dry mark is no decimal number\n\
        line 21: new: time is no decimal number\n\
        line 22: unload: a word too many\n\
        line 23: poke: place is over 16383\n\
        line 24: peek: place is over 16383\n\
        line 25: lend: number of outcome words is over 24576\n\
        line 26: lend: number of effect words is over 327680\n\
        line 27: no such call\n\
        line 28: no such call\n\
        deadline none\n";
    assert_eq!(play(text), expected);
}

#[test]
fn numbers_have_any_length() {
    let nines = "9".repeat(100);
    assert_eq!(play(&format!("new {nines}")), "line 1: new: time does not fit into 64 bits\n");
    assert_eq!(play("new 18446744073709551615\nnew 000000000000000000000000001"), "");
}

#[test]
fn lists_and_lines_that_are_too_long() {
    let list = " 1".repeat(LIST_WORDS);
    assert_eq!(play(&format!("tick{list}")), "tick refused 20\n");
    assert_eq!(play(&format!("tick{list} x")), "line 1: tick: more than 8192 words\n");
    let line = "#".repeat(LINE_BYTES);
    assert_eq!(play(&format!("{line}\n{line}#\ndeadline")), "line 2: line too long\ndeadline none\n");
    let mut player = Player::default();
    let line = vec![b'\xff'; LINE_BYTES];
    assert_eq!(player.feed_bytes(&line), "line 1: no such call\n");
}

#[test]
fn empty_images_and_snapshots_are_refused() {
    let expected = "load refused 10\ntick refused 20\nrun refused 20\n";
    assert_eq!(play("load 0\ntick\nrun 5 1\n"), expected);
}

#[test]
fn answers_other_than_outcomes() {
    let run = format!("run 5 0 {AT_0}");
    let text = played(&[
        "enable 5 1", "enable 6 0", "deadline", &run, "deadline", "counters", "peek 13723",
        "unload 0", "counters", "peek 13723", "new 0", "peek 13723",
    ]);
    let expected = "enable 5 yes\nenable 6 no\ndeadline none\nrun 0 1\nrule 5 0 0 0 1\n\
        effect 11 7 0 0 0\ndeadline 1000\n\
        counters 1 0 0 0 0 0 1 0 1 0 0 0 1 0 1 0\npeek 13723 2\n\
        counters 1 0 0 0 0 0 1 0 1 0 1 0 0 0 0 0\npeek 13723 2\npeek 13723 1\n";
    assert_eq!(text, expected);
}

#[test]
fn a_store_of_another_size_is_refused_first() {
    let tick = "tick";
    let text = played(&[
        "size 16383", "new 0", "load 0", "unload 0", "enable 5 1", tick, "run 5 0", "deadline",
        "counters", "size 16384", "deadline",
    ]);
    let expected = "new refused 1\nload refused 1\nunload refused 1\nenable refused 1\n\
        tick refused 1\nrun refused 1\ndeadline refused 1\ncounters refused 1\ndeadline none\n";
    assert_eq!(text, expected);
}

#[test]
fn too_small_lent_stores_are_refused_and_nothing_changes() {
    let run = format!("run 5 0 {AT_0}");
    let text = played(&[
        "lend 7 5", &run, "lend 8 4", &run, "counters", "deadline", "lend 8 5", &run,
    ]);
    let expected = "run refused 30\nrun refused 30\n\
        counters 0 0 0 0 0 0 0 0 0 0 0 0 0 0 1 0\ndeadline none\n\
        run 0 1\nrule 5 0 0 0 1\neffect 11 7 0 0 0\n";
    assert_eq!(text, expected);
}

#[test]
fn a_sequence_number_past_64_bits_is_refused() {
    let run = format!("run 5 0 {AT_0}");
    let text = played(&[
        "poke 13723 4294967294", "poke 13724 4294967295", &run, &run, "lend 7 5", &run,
        "peek 13723", "peek 13724", "poke 5 1", "peek 5",
    ]);
    let expected = "run 0 1\nrule 5 0 0 0 1\neffect 11 7 0 0 0\nrun refused 31\n\
        run refused 30\npeek 13723 4294967295\npeek 13724 4294967295\n\
        poke 5 unsupported\npeek 5 unsupported\n";
    assert_eq!(text, expected);
}

#[test]
fn a_call_and_its_line_are_each_other_back() {
    let lines = [
        "new 18446744073709551615", "load 1 2 3", "unload 0", "enable 5 1", "tick 1 2", "tick",
        "run 5 1 2 3", "deadline", "counters", "lend 6 5", "size 7", "poke 1 2", "peek 3",
        "telegrams 8192 12 1 10 0 0", "crontab 6 16 0 5 * * 1-5 # up", "crontab 7 0", "start 1 2", "start", "room 5 1 0",
        "shortlist 1 8 0 2 21 7 0 0 0 0 0 0 1 2",
        "rewrite 8192 1 2", "rewrite 0", "readback 5 16384 1 2", "readback 5 0",
    ];
    for text in lines {
        let call = parse(text).expect("good text").expect("a call");
        assert_eq!(line(&call), text);
    }
}

#[test]
fn the_list_of_telegrams_asks_no_store() {
    let effects = "12 1 10 0 0 11 7 0 0 0 12 1 20 0 0";
    let list = "telegrams 2\neffect 11 7 0 0 0\neffect 12 1 20 0 0\n";
    let text = played(&[
        "size 1", &format!("telegrams 10 {effects}"), &format!("telegrams 9 {effects}"), "telegrams 10 13 0 0 0 0", "telegrams 0",
        "telegrams 8193",
    ]);
    assert_eq!(text, format!("{list}telegrams refused 61\ntelegrams refused 60\ntelegrams 0\nline 7: telegrams: room is over 8192\n"));
}

#[test]
fn the_room_that_an_image_needs_asks_no_store() {
    let image = LOAD.trim_start_matches("load 0");
    let text = played(&["size 1", &format!("room{}", image.trim_end()), "room", "room x"]);
    assert_eq!(text, "room 32 96\nroom refused 10\nline 5: room: word 0 is no decimal number\n");
}

#[test]
fn a_short_list_asks_no_store() {
    let logs = "21 7 0 0 0 0 0 0 ".repeat(8);
    let lines: Vec<String> = [17, 0, 585].iter().map(|k| format!("shortlist {k} 64 0 0 {logs}")).collect();
    let text = played(&[
        "size 1", &lines[0], &lines[1], &lines[2], "shortlist 0 0 0 0", "shortlist 9 8 0 1 21 7 0 0 0 0 0 0 256",
        "shortlist 0 8 0 1 21 7 0 0 0 0 0 0", "shortlist 0 8 0 0 21 7 0 0 0 0 0 0 1", "shortlist 0 8193", "shortlist 0 8 0",
    ]);
    let expected = "shortlist 2 1 0 0\nshortlist 0 0 0 0\nshortlist refused 72\nshortlist refused 70\nshortlist refused 71\n\
        line 8: shortlist: a word too few\nline 9: shortlist: a word too many\n\
        line 10: shortlist: number of action words is over 8192\nline 11: shortlist: number of pool words is missing\n";
    assert_eq!(text, expected);
}

#[test]
fn the_readback_of_solar_starts_asks_the_store() {
    let at_sunrise = "load 0 5 0 0 0 0 1 0 0 0 0 0 0 0 0 0 0 3 0 4294877296 0 0 0 0 0 8 0 1 0 0 0 16 16 24 24 24 24 24";
    let sunny = "0 0 0 0 0 1 10 1000 0 0 0 0 0 0";
    let text = played(&[
        at_sunrise, &format!("readback 5 3 {sunny}"), &format!("readback 5 2 {sunny}"), &format!("readback 5 3 {AT_0}"), "readback 6 0", "size 9",
        "readback 5 3", "readback 5", "readback 5 16385", "readback 5 3 x",
    ]);
    let expected = "readback 1\nstart 0 9 -30000\nreadback refused 30\nreadback 1\nstart 1 0 0\nreadback refused 20\nreadback refused 1\n\
        line 9: readback: number of start words is missing\nline 10: readback: number of start words is over 16384\n\
        line 11: readback: word 0 is no decimal number\n";
    assert_eq!(text, expected);
}

#[test]
fn a_line_of_a_crontab_asks_no_store() {
    let text = played(&["size 1", "crontab 6 16 30,0 5 * * 1-5 # up", "crontab 6 15 30,0 5 * * *", "crontab 6 16 0 5 1 * *", "crontab 7 16 0 5 * * *"]);
    let list = "crontab 2\ntrigger 5 0 31\ntrigger 5 30 31\n";
    assert_eq!(text, format!("{list}crontab refused 52\ncrontab refused 51\ncrontab refused 50\n"));
}

#[test]
fn writing_an_image_asks_no_store() {
    let alone = "8 8 255 255 255 0 0 0 0 0 0 0 0";
    let unused = "21 7 0 0 0 0 0 0 8 8 255 255 255 0 0 0 0 0 8 8 8";
    let text = played(&[
        "size 1", &format!("rewrite 13 {unused}"), &format!("rewrite 12 {unused}"), "rewrite 8192", &format!("rewrite 0 {alone} 0"),
        &format!("rewrite 8193 {alone}"), "rewrite", "rewrite 13 x",
    ]);
    let complaints = "line 7: rewrite: room is over 8192\nline 8: rewrite: room is missing\nline 9: rewrite: word 0 is no decimal number\n";
    assert_eq!(text, format!("rewrite 13 {alone}\nrewrite refused 41\nrewrite refused 10\nrewrite refused 11\n{complaints}"));
}

fn said(text: &[u8]) -> Result<Vec<u8>, String> {
    match table::parse(ROWS, text)? {
        Some(Call::Own { given, .. }) => Ok(given.text),
        other => Err(format!("{other:?}")),
    }
}

#[test]
fn a_text_is_the_rest_of_the_line_as_it_stands() {
    assert_eq!(said(b"crontab 6 16 # 5 * # \xff"), Ok(b"# 5 * # \xff".to_vec()));
    assert_eq!(said(b" crontab 6  16"), Ok(Vec::new()));
    assert_eq!(said(b"crontab 6 16 "), Ok(Vec::new()));
    assert_eq!(said(b"crontab 6 16  a\r"), Ok(b" a\r".to_vec()));
    assert_eq!(said(b"crontab # 5"), Err("crontab: Sunday is no decimal number".to_owned()));
    assert_eq!(said(b"crontab 6 16#x"), Err("crontab: number of trigger words is no decimal number".to_owned()));
    assert_eq!(said(b"crontab#6 16 x"), Err("crontab: Sunday is no decimal number".to_owned()));
    assert_eq!(said(b"crontab 6"), Err("crontab: number of trigger words is missing".to_owned()));
    assert_eq!(said(b"crontab 6 16385 x"), Err("crontab: number of trigger words is over 16384".to_owned()));
    assert_eq!(said(b"# crontab 6 16 x"), Err("None".to_owned()));
}
