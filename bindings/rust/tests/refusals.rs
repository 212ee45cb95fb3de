//! Each refusal that can come about here, and that it leaves everything as it was.

use std::collections::HashSet;

use zamgulekt::{
    cmp_rows, compare_text, greater_row, open, sizes_of, step_at, Builder, Filter, Refusal,
    RowReader,
};

fn number<T>(answer: Result<T, Refusal>) -> u8 {
    answer.map_or_else(|refusal| refusal.number, |_| 0)
}

/// Rows that no set of configuration 7 has, and why.
const NO_ROWS: [(u8, &[u8]); 4] = [
    (4, &[5]),
    (4, &[0; 1066]),
    (2, &[0x80, 0x20]),
    (5, &[5, 0, 5, 0]),
];

#[test]
fn there_are_three_configurations() {
    for config in [0, 8, 14, 263, u64::MAX] {
        assert_eq!(number(sizes_of(config)), 1);
        assert_eq!(number(Filter::empty(config)), 1);
        assert_eq!(number(Filter::from_row(config, &[5])), 1);
        assert_eq!(number(Builder::new(config, usize::MAX)), 1);
        assert_eq!(number(open(config, &[5])), 1);
        assert_eq!(number(cmp_rows(config, 8, 0, &[5], &[5])), 1);
        assert_eq!(number(greater_row(config, 8, 0, &[5], &[5])), 1);
        assert_eq!(number(step_at(config, &[5], 0)), 1);
        assert_eq!(number(RowReader::new(config, &[5]).open()), 1);
    }
}

#[test]
fn a_list_with_a_bucket_out_of_range_flips_none() {
    let mut filter = Filter::empty(10).unwrap();
    filter.toggle(&[5, 66_559]).unwrap();
    let before = filter.clone();
    assert_eq!(number(filter.toggle(&[6, 66_560])), 2);
    assert_eq!(filter, before);

    let mut builder = Builder::new(10, 100).unwrap();
    builder.push(&[5, 66_559]).unwrap();
    assert_eq!(number(builder.push(&[6, u32::MAX])), 2);
    assert_eq!(builder.finish(), before);
}

#[test]
fn a_split_goes_up_to_w() {
    assert_eq!(number(Builder::new(7, 8321)), 2);
    let mut builder = Builder::new(7, 8320).unwrap();
    assert_eq!(number(builder.raise(8321)), 2);
    assert_eq!(number(builder.raise(8320)), 0);
}

#[test]
fn no_row_is_taken_that_no_set_has() {
    for (why, row) in NO_ROWS {
        assert_eq!(number(Filter::from_row(7, row)), why);
        assert_eq!(number(open(7, row)), why);
        assert_eq!(number(step_at(7, row, 90)), why);
        assert_eq!(number(RowReader::new(7, row).open()), why);
        assert_eq!(number(cmp_rows(7, 1, 1, row, &[])), why);
        assert_eq!(number(greater_row(7, 1, 1, &[], row)), why);
    }
}

#[test]
fn masks_are_judged_before_rows_and_the_first_row_before_the_second() {
    assert_eq!(number(cmp_rows(7, 8, 0, &[5], &[5])), 6);
    assert_eq!(number(cmp_rows(7, 8, 3, &[5], &[5])), 7);
    assert_eq!(number(cmp_rows(7, 7, 3, &[0x80, 0x20], &[5])), 2);
    assert_eq!(number(greater_row(7, 7, 64, &[5], &[5])), 6);
}

#[test]
fn two_filters_have_one_configuration() {
    let a = Filter::empty(7).unwrap();
    let b = Filter::empty(13).unwrap();
    assert_eq!(number(a.symmetric_difference(&b)), 9);
    assert_eq!(number(a.exact_difference(&b)), 9);
    assert_eq!(number(a.limited_difference(&b)), 9);
    assert_eq!(number(a.cmp_masked(&b, 8, 3)), 9);
    assert_ne!(a, b);
}

#[test]
fn a_refusal_of_the_text_is_an_answer() {
    assert_eq!(compare_text(b""), b"refused 11 1\n");
    assert_eq!(compare_text(&[b'c'; 40_001]), b"refused 11 0\n");
    let text = b"config 10\nmask 7 3\n05000000\n0500\n";
    assert_eq!(compare_text(text), b"refused 4 4\n");
}

#[test]
fn each_says_what_it_means() {
    let refusals = [
        sizes_of(0).unwrap_err(),
        open(7, &[0x80, 0x20]).unwrap_err(),
        open(7, &[5]).unwrap_err(),
        open(7, &[5, 0, 5, 0]).unwrap_err(),
        cmp_rows(7, 0, 0, &[], &[]).unwrap_err(),
        cmp_rows(7, 2, 1, &[], &[]).unwrap_err(),
    ];
    let meanings: HashSet<_> = refusals.iter().map(Refusal::meaning).collect();
    assert_eq!(meanings.len(), refusals.len());
    assert!(!meanings.contains("a number that this version does not know"));
    let error: Box<dyn std::error::Error> = refusals[0].into();
    assert_eq!(
        error.to_string(),
        "refused 1: the configuration is not 7, 10 or 13"
    );
    assert_eq!(format!("{:?}", refusals[1]), "Refusal { number: 2 }");
}
