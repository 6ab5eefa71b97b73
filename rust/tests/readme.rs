//! The README's example stands there as in `examples`, and ends without a
//! refusal of its list.

mod example {
    include!("../examples/hyphenate.rs");

    #[test]
    fn it_runs() {
        assert_eq!(main(), Ok(()));
    }
}

#[test]
fn the_readme_has_it() {
    let readme = include_str!("../../README.md");
    let example = include_str!("../examples/hyphenate.rs");
    assert!(readme.contains(&format!("```rust\n{}```\n", example)));
}
