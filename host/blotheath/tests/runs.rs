//! Runs: the program's own steps beside the archive's answers, and what `follow` tells of them.

mod common;

use blotheath::{Choice, Run, Standing, Tree, bytes_of};
use common::json::parse;
use common::{
    Numbers, build, damaged, files, run, run_in_64_mb, run_in_64_mb_with, run_with, sample,
};
use std::fs;
use std::time::{Duration, Instant};

fn sample_path() -> String {
    sample().to_str().unwrap().to_owned()
}

/// A choice as a run meets it: mostly on, at times into a child or to a handler, seldom out.
fn some_choice(numbers: &mut Numbers) -> Choice {
    match numbers.below(16) {
        0..8 => Choice::GoOn,
        8..10 => Choice::Jump,
        10..13 => Choice::Enter,
        13..15 => Choice::Caught([0, 0, 1, 2, 65_535][numbers.below(5)]),
        _ => Choice::Leave,
    }
}

/// Runs along a list step by step; after every choice, and back again, the run stands where the archive says.
fn along(file: &[u8], choices: &[Choice]) {
    let pattern = blotheath::examine(file).unwrap();
    let tree = Tree::of(&pattern);
    let mut run = Run::new(&pattern, &tree);
    let mut past = vec![(run.before(), run.standing())];
    assert_eq!(Ok(run.standing()), blotheath::follow(file, &[]));
    for (number, choice) in choices.iter().enumerate() {
        let mut bytes = bytes_of(&choices[..number]);
        let goes_on = blotheath::follow(file, &[&bytes[..], &[0]].concat());
        bytes.extend(bytes_of(&[*choice]));
        let before = run.before();
        let is_open = run.take(*choice);
        let answer = blotheath::follow(file, &bytes);
        assert_eq!(Ok(run.standing()), answer, "{:?}", &choices[..=number]);
        assert!(is_open || answer == goes_on);
        past.push((before, run.standing()));
    }
    while let Some((before, standing)) = past.pop() {
        assert_eq!(run.standing(), standing);
        if !past.is_empty() {
            run.back(before);
        }
    }
}

#[test]
fn every_standing_is_the_archives() {
    let mut numbers = Numbers(13);
    let mut tried = 0;
    let mut stock: Vec<Vec<u8>> = files().iter().map(|path| fs::read(path).unwrap()).collect();
    stock.extend([build::newer(), build::wide(), build::touching()]);
    for file in stock {
        let others = (0..20).map(|_| damaged(&file, &mut numbers));
        let others: Vec<Vec<u8>> = others.collect();
        for (number, file) in std::iter::once(file).chain(others).enumerate() {
            if blotheath::examine(&file).is_err() {
                continue;
            }
            for _ in 0..if number == 0 { 6 } else { 1 } {
                let length = 1 + numbers.below(50);
                let choices: Vec<Choice> = (0..length).map(|_| some_choice(&mut numbers)).collect();
                along(&file, &choices);
                tried += 1;
            }
        }
    }
    assert!(tried > 6, "{tried}");
}

#[test]
fn a_run_into_every_record_of_a_chain() {
    let file = build::chain(false, true);
    let pattern = blotheath::examine(&file).unwrap();
    let tree = Tree::of(&pattern);
    let mut run = Run::new(&pattern, &tree);
    for _ in 1..1_024 {
        assert!(run.take(Choice::Enter));
    }
    let entered = blotheath::follow(&file, &[2; 1_023]);
    assert_eq!(run.frames().len(), 1_024);
    assert_eq!(Ok(run.standing()), entered);
    assert!(!run.take(Choice::Enter));
    for _ in 0..1_023 {
        assert!(run.take(Choice::Leave));
    }
    assert_eq!(run.standing(), Standing::Finished);
    assert!(!run.take(Choice::GoOn));
}

#[test]
fn a_million_choices_in_64_mb() {
    let path = sample_path();
    let told = "1,048,576 choices: the ";
    let ran = run_in_64_mb_with(&["follow", &path], b"1048576 caught 0\nquit\n");
    assert_eq!(ran.status, 0, "{}", ran.err);
    assert!(ran.out.contains(told), "{}", ran.out);
    let answers = b"1048576 caught 0\ngo\nback\nback\ngo\n";
    let ran = run_in_64_mb_with(&["follow", &path], answers);
    assert_eq!(ran.status, 0, "{}", ran.err);
    assert!(
        ran.err.contains("these are too many choices"),
        "{}",
        ran.err
    );
    assert!(ran.out.contains("1,048,575 choices: the "), "{}", ran.out);
    for words in [
        &["follow", &path, "1048576 caught 0"][..],
        &["follow", &path, "1048576", "enter", "--json"],
    ] {
        let ran = run_in_64_mb(words);
        assert_eq!(ran.status, 0, "{}", ran.err);
        assert!(ran.out.len() < 4_096, "{}", ran.out);
    }
}

/// Far above what one run takes, and far below what a run for every choice would.
const LONG: Duration = Duration::from_secs(20);

#[test]
fn time_grows_with_the_choices() {
    let path = sample_path();
    let start = Instant::now();
    let ran = run(&["follow", &path, "60000 caught 0", "--each"]);
    assert_eq!((ran.status, ran.out.lines().count()), (0, 120_001));
    let ran = run(&["follow", &path, "60000 caught 0", "--each", "--json"]);
    assert_eq!(ran.status, 0);
    assert!(start.elapsed() < LONG, "{:?}", start.elapsed());
    let start = Instant::now();
    let answers = "caught 0\n".repeat(60_000) + &"back\n".repeat(30_000);
    let ran = run_with(&["follow", &path], answers.as_bytes());
    assert_eq!(ran.status, 0, "{}", ran.err);
    assert!(ran.out.contains("30,000 choices: the "));
    assert!(start.elapsed() < LONG, "{:?}", start.elapsed());
}

#[test]
fn a_choice_that_is_not_open_is_told() {
    let path = sample_path();
    let told = "enter is not open at ARRAY: went on";
    let ran = run(&["follow", &path, "go go enter go"]);
    assert!(
        ran.out
            .starts_with(&format!("choice 3: {told}\n  ▶ record 0")),
        "{}",
        ran.out
    );
    let ran = run(&["follow", &path, "go go enter go", "--each"]);
    assert!(
        ran.out.contains(&format!("3. enter\n{told}\n")),
        "{}",
        ran.out
    );
    assert_eq!(ran.out.matches("not open").count(), 1);
    let ran = run_with(&["follow", &path], b"2 go\nenter\nquit\n");
    assert!(
        ran.out.contains(&format!("choice 3: {told}\n")),
        "{}",
        ran.out
    );
    let ran = run(&["follow", &path, "jump caught 7 leave leave"]);
    for told in [
        "choice 1: jump is not open at STRING: went on\n",
        "choice 2: caught 7 is not open in record 0: went on\n",
        "choice 4: the run is finished: leave does nothing\n",
    ] {
        assert!(ran.out.contains(told), "{}", ran.out);
    }
    // A long list tells the first few, and how many more.
    let ran = run(&["follow", &path, "1000 jump"]);
    assert_eq!(ran.out.lines().count(), 7, "{}", ran.out);
    assert!(ran.out.contains(" more choices: not open\n"), "{}", ran.out);
}

#[test]
fn a_choice_that_is_not_open_is_told_in_json() {
    let path = sample_path();
    let each = parse(&run(&["follow", "--json", "--each", &path, "go go enter go"]).out);
    let standings = each.get("standings").items();
    assert!(!standings[0].has("open"));
    for (number, standing) in standings.iter().enumerate().skip(1) {
        assert_eq!(standing.get("open").is_true(), number != 3);
    }
    assert_eq!(standings[3].get("choice").text(), "enter");
    // The last standing is the archive's answer, those before it are the program's own.
    let last = if cfg!(feature = "model") {
        "model"
    } else {
        "archive"
    };
    for (number, standing) in standings.iter().enumerate() {
        let by = if number == 4 { last } else { "program" };
        assert_eq!(standing.get("by").text(), by);
    }
    assert!(each.get("agrees").is_true());
    let end = parse(&run(&["follow", "--json", &path, "go go enter 30 jump"]).out);
    let missed = end.get("not_open");
    assert!(missed.get("number").number() > 20.0);
    let first = &missed.get("first").items();
    assert_eq!(first.len(), 5);
    assert_eq!(first[0].get("choices").number(), 3.0);
    let sentence = first[0].get("sentence").text();
    assert_eq!(sentence, "enter is not open at ARRAY: went on");
    assert_eq!(end.get("standings").items().len(), 1);
}

#[test]
fn the_choices_of_the_examples_are_open() {
    let path = sample_path();
    let mut examples = 0;
    for words in [&["--help"][..], &["help", "follow"]] {
        for line in run(words).out.lines() {
            let Some(choices) = line.trim().strip_prefix("blotheath follow oval.mrb ") else {
                continue;
            };
            let mut words = vec!["follow", path.as_str()];
            words.extend(choices.split_whitespace());
            if choices.starts_with("--source") {
                continue;
            }
            let ran = run(&words);
            assert_eq!(ran.status, 0, "{line}: {}", ran.err);
            assert!(!ran.out.contains("not open"), "{line}: {}", ran.out);
            assert!(!ran.out.contains("finished"), "{line}: {}", ran.out);
            examples += 1;
        }
    }
    assert!(examples >= 4);
}

#[test]
fn a_list_that_is_no_list_of_choices() {
    let path = sample_path();
    for words in [&["bytes", "0005"][..], &["bytes", "000300", "--each"]] {
        let ran = run(&[&["follow", &path], words].concat());
        assert_eq!(ran.status, 1);
        assert!(ran.out.starts_with("refused by 21: "), "{}", ran.out);
    }
    let ran = run(&["follow", &path, "--json", "--each", "bytes", "0005"]);
    let refused = parse(&ran.out);
    let standing = &refused.get("standings").items()[0];
    assert_eq!(standing.get("refusal").number(), 21.0);
    assert_eq!(refused.get("choices").number(), 2.0);
}
