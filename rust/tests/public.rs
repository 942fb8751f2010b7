//! The crate as its users have it: refusals are errors, series and weights can be printed and copied, weights end where the part does.

use std::error::Error;
use walzhik::{build, curve, ring_lines, tucson_clean, tucson_read, tucson_write};
use walzhik::{Cleaned, Fraction, Note, Pair, Reason, Refusal, Series, Unit, WoodPart};

/// What a caller with errors of many kinds writes.
fn rows_of(degrees: &[i32]) -> Result<usize, Box<dyn Error>> {
    Ok(build(&[0, 1, 3], degrees, &[1])?.rows)
}

#[test]
fn a_refusal_is_an_error() {
    assert_eq!(rows_of(&[2, 2]).unwrap(), 4);
    let error = rows_of(&[1, 2]).unwrap_err();
    assert_eq!(error.to_string(), "refused 5 at 0");
    assert_eq!(error.downcast_ref::<Refusal>().unwrap().reason(), Reason::Order);
}

#[test]
fn weights_end_where_the_part_does() {
    let weights = build(&[0, 1, 3], &[2, 2], &[1]).unwrap();
    assert_eq!(weights.at(1, 2), Some(Fraction { num: 2, den: 3 }));
    assert_eq!(weights.at(3, 5), Some(Fraction { num: 1, den: 1 }));
    for (row, column) in [(4, 0), (0, 6), (72, 0), (0, 72), (usize::MAX, usize::MAX)] {
        assert_eq!(weights.at(row, column), None);
    }
}

#[test]
fn the_last_part_of_a_beam_is_counted_by_itself() {
    let beam = build(&[0, 5, 6, 8], &[3, 2, 2], &[-1, 1]).unwrap();
    let part = build(&[5, 6, 8], &[2, 2], &[1]).unwrap();
    assert_eq!((beam.rows, part.rows), (8, 4));
    for row in 0..6 {
        for column in 0..8 {
            assert_eq!(beam.at(row, column), part.at(row, column));
        }
    }
}

#[test]
fn series_and_weights_are_printed_copied_and_compared() {
    let text = b"FEW     1998    12     9\nFEW     2000     7 -9999\n";
    let read: Vec<Series> = tucson_read(text).unwrap();
    assert_eq!(read.clone(), read);
    assert!(format!("{read:?}").contains("first_year: 1998"));
    assert_eq!(tucson_write(&read, text.len()).unwrap(), text);
    let weights = build(&[0, 1], &[1], &[]).unwrap();
    assert_eq!(weights.clone(), weights);
    assert!(format!("{weights:?}").contains("rows: 2"));
}

#[test]
fn empty_lists_are_lists() {
    let pair = Pair { earlywood: 1, latewood: 1 };
    assert_eq!(curve(&[0, 1], &[1], &[], &[pair, pair], &[]), Ok(vec![]));
    assert_eq!(curve(&[], &[], &[], &[], &[]).unwrap_err().reason(), Reason::ListLengths);
    assert_eq!(tucson_read(b""), Ok(vec![]));
}

#[test]
fn a_laboratorys_file_is_read_as_it_is_shown() {
    let file = b"\r\nFEW\t1998    12     9  \nFEW     2000     7  -999";
    let cleaned: Cleaned = tucson_clean(file, None, Some(Unit::Thousandths)).unwrap();
    let text = b"FEW     1998    12     9\nFEW     2000     7 -9999\n";
    assert_eq!(cleaned.text, text);
    assert_eq!(cleaned.lines, [2, 3]);
    let told = [(3, 1), (6, 1), (4, 2), (5, 2), (8, 3), (11, 3)];
    assert_eq!(cleaned.notes, told.map(|(number, line)| Note { number, line }));
    assert_eq!(tucson_read(&cleaned.text).unwrap()[0].widths, [12, 9, 7]);
    assert_eq!(tucson_clean(text, None, None).unwrap(), Cleaned { text: text.to_vec(), lines: vec![1, 2], notes: vec![] });
    assert_eq!(tucson_clean(b"", None, None).unwrap(), Cleaned { text: vec![], lines: vec![], notes: vec![] });
}

#[test]
fn what_a_file_is_refused_for() {
    let closing = b"FEW     1998    12   999   999\n";
    let said = b"FEW     1998    12 -9999\n";
    let refused = |file: &[u8], header, unit| tucson_clean(file, header, unit).unwrap_err();
    assert_eq!(refused(b"FEW\0", None, None).reason(), Reason::FileText);
    assert_eq!(refused(b"F\xfcW     1998\t 12 -9999\n", None, None).reason(), Reason::FileBytes);
    assert_eq!(refused(b"FEW    -1998    12 -9999\n", None, None).reason(), Reason::FileName);
    assert_eq!(refused(said, None, Some(Unit::Hundredths)).reason(), Reason::FileUnit);
    assert_eq!(refused(closing, None, None), Refusal { number: 25, place: 1 });
    assert_eq!(refused(closing, None, None).reason(), Reason::FileClosing);
    for lines in [2, 99, 100, 101, u32::MAX] {
        assert_eq!(refused(said, Some(lines), None), Refusal { number: 26, place: 0 });
    }
    assert_eq!(refused(said, Some(1), None).reason(), Reason::FileHeader);
    assert_eq!(refused(b"FEW 1998 12 -9999\n", None, None).reason(), Reason::TucsonLine);
}

#[test]
fn lines_of_the_table_have_the_curve_of_a_wood() {
    let values = [Pair { earlywood: 207872, latewood: -16 }, Pair { earlywood: 256, latewood: 1 }];
    let lines = |part, name: &[u8]| ring_lines(part, name, -1, &[812, 0], &values, &[1000, -1]);
    assert_eq!(lines(WoodPart::Earlywood, b"A,B     ").unwrap(), b"\"A,B\",-1,0.812,0.812000,1000\n\"A,B\",0,0.000,0.001000,\n");
    assert_eq!(lines(WoodPart::Latewood, b"  OAK   ").unwrap(), b"OAK,-1,0.812,-0.000062,1000\nOAK,0,0.000,0.000004,\n");
    assert_eq!(lines(WoodPart::Latewood, b"OAK").unwrap_err().number, 2);
    assert_eq!(lines(WoodPart::Latewood, b"        ").unwrap_err().number, 11);
}
