//! The program of README.md is the example `head`.

#[test]
fn the_program_of_the_page_is_the_example() {
    let page = include_str!("../README.md");
    let (_, rest) = page.split_once("```rust,no_run\n").unwrap();
    let (program, _) = rest.split_once("```\n").unwrap();
    assert_eq!(program, include_str!("../examples/head.rs"));
    assert!(program.lines().count() <= 90);
}
