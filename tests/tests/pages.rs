//! The pages: that the names which TRACE and DESIGN cite stand where they say, that every wrong program and every
//! job of document 02 is listed, that links lead somewhere and that lines are no longer than agreed. It reads the
//! repository's files alone. The modules have tests of their own on made-up pages, so that each check is seen to
//! fail.

#[path = "pages/conversions.rs"]
mod conversions;
#[path = "pages/form.rs"]
mod form;
#[path = "pages/jobs.rs"]
mod jobs;
#[path = "pages/layers.rs"]
mod layers;
#[path = "pages/names.rs"]
mod names;
#[path = "pages/page.rs"]
mod page;
#[path = "pages/source.rs"]
mod source;
#[path = "pages/tree.rs"]
mod tree;

use names::Names;
use tree::Tree;

const TRACE: &str = "docs/TRACE.md";
const DESIGN: &str = "docs/DESIGN.md";

/// The pages whose form is looked at, beside all of `docs/`.
const PAGES: [&str; 4] = [
    "README.md",
    "bench/NOTES.md",
    "examples/README.md",
    "tests/README.md",
];

/// Fails with all faults, a line for each.
fn assert_none(faults: Vec<String>) {
    assert!(faults.is_empty(), "\n{}\n", faults.join("\n"));
}

#[test]
fn names_stand_where_trace_says() {
    assert_none(Names::of(&Tree::repository()).check(TRACE).0);
}

#[test]
fn names_stand_where_design_says() {
    assert_none(Names::of(&Tree::repository()).check(DESIGN).0);
}

#[test]
fn a_misspelt_name_is_noticed_wherever_it_stands() {
    let tree = Tree::repository();
    let names = Names::of(&tree);
    let pages = [TRACE, DESIGN].into_iter();
    assert_none(pages.flat_map(|page| names.unnoticed(page)).collect());
}

#[test]
fn every_wrong_program_is_named() {
    assert_none(Names::of(&Tree::repository()).unnamed(TRACE));
}

#[test]
fn each_job_is_built_or_not() {
    let tree = Tree::repository();
    assert_none(jobs::faults(TRACE, tree.text(TRACE).unwrap_or_default()));
}

#[test]
fn places_where_types_are_left_are_listed() {
    assert_none(conversions::faults(&Tree::repository(), TRACE));
}

#[test]
fn pages_have_their_form_and_their_links_lead() {
    let tree = Tree::repository();
    let docs = tree.with("docs/", ".md");
    let faults = PAGES.into_iter().chain(docs);
    assert_none(faults.flat_map(|page| form::faults(&tree, page)).collect());
}

#[test]
fn the_picture_has_every_crate() {
    assert_none(layers::picture_faults(&Tree::repository()));
}

#[test]
fn the_script_draws_the_picture() {
    assert_none(layers::script_faults(&Tree::repository()));
}

#[test]
fn the_map_has_every_crate() {
    assert_none(layers::map_faults(&Tree::repository()));
}

#[test]
fn crates_name_what_they_use() {
    assert_none(layers::unused_faults(&Tree::repository()));
}
