//! "Replay lines".

use second::replay::replay;

const HEADER: &str = "call\tanswer\tkind\tvalue\tflags\trounds\tremoved\n";

/// The output lines without the header and without their call numbers.
fn answers(input: &[u8]) -> Vec<String> {
    let output = String::from_utf8(replay(input)).unwrap();
    let body = output.strip_prefix(HEADER).unwrap();
    assert!(body.is_empty() || body.ends_with('\n'));
    body.lines()
        .enumerate()
        .map(|(at, line)| line.strip_prefix(&format!("{}\t", at + 1)).unwrap().to_string())
        .collect()
}

/// The answer to one line after a `fresh`.
fn answer(line: &str) -> String {
    answers(format!("fresh\t4\n{line}\n").as_bytes()).remove(1)
}

const DONE: &str = "0\t0\t-\t0\t0\t0";
const NOT_UNDERSTOOD: &str = "13\t0\t-\t0\t0\t0";

#[track_caller]
fn assert_understood(line: &str) {
    assert_eq!(answer(line), DONE, "{line:?}");
}

#[track_caller]
fn assert_not_understood(line: &str) {
    assert_eq!(answer(line), NOT_UNDERSTOOD, "{line:?}");
}

#[test]
fn the_example_of_01() {
    let input = b"fresh\t4\n1000\tset\tAB12\t3\t14200\t500\t0\n1200\tget\tAB12\n1500\tget\tAB12\n1500\tget\t\n";
    let output = b"call\tanswer\tkind\tvalue\tflags\trounds\tremoved\n\
1\t0\t0\t-\t0\t0\t0\n\
2\t0\t0\t-\t0\t0\t0\n\
3\t0\t3\t14200\t0\t0\t0\n\
4\t8\t0\t-\t0\t0\t1\n\
5\t3\t0\t-\t0\t0\t0\n";
    assert_eq!(replay(input), output);
    assert_eq!(replay(&input[..input.len() - 1]), output);
}

#[test]
fn ends_of_lines() {
    assert_eq!(replay(b""), HEADER.as_bytes());
    assert_eq!(answers(b"\n"), [NOT_UNDERSTOOD]);
    assert_eq!(answers(b"\n\n"), [NOT_UNDERSTOOD; 2]);
    assert_eq!(answers(b"fresh\t4"), [DONE]);
    assert_eq!(answers(b"fresh\t4\n"), [DONE]);
    assert_eq!(answers(b"fresh\t4\n\n"), [DONE, NOT_UNDERSTOOD]);
    assert_eq!(answers(b"fresh\t4\n\nfresh\t4"), [DONE, NOT_UNDERSTOOD, DONE]);
}

#[test]
fn longest_line() {
    // 1 + tab + set + tab + key + tab + 4 + tab + tab + 0 + tab + 0
    let line = |length: usize| format!("1\tset\t{}\t4\t\t0\t0", "k".repeat(length - 13));
    assert_eq!(line(4096).len(), 4096);
    let input = format!("fresh\t1024\n{}\n{}\n1\tget\tk\n", line(4096), line(4097));
    assert_eq!(answers(input.as_bytes()), [DONE, DONE, NOT_UNDERSTOOD, "8\t0\t-\t0\t0\t0"]);
    // Without its end: the last line too.
    assert_eq!(answers(format!("fresh\t1024\n{}", line(4096)).as_bytes())[1], DONE);
    assert_eq!(answers(format!("fresh\t1024\n{}", line(4097)).as_bytes())[1], NOT_UNDERSTOOD);
    assert_eq!(answers("x".repeat(10_000).as_bytes()), [NOT_UNDERSTOOD]);
}

#[test]
fn before_the_first_fresh() {
    let input = b"1\tget\tk\n0\tget\t\n1\tset\tk\t9\t\t0\t0\n1\tdelete\tk\n1\tgot\tk\nfresh\t0\nfresh\t1025\n1\tget\tk\nfresh\t1\n1\tget\tk\n";
    let one = "1\t0\t-\t0\t0\t0";
    let expected = [one, one, one, one, NOT_UNDERSTOOD, NOT_UNDERSTOOD, NOT_UNDERSTOOD, one, DONE, "8\t0\t-\t0\t0\t0"];
    assert_eq!(answers(input), expected);
}

#[test]
fn fresh() {
    for cells in ["1", "4", "1023", "1024"] {
        assert_understood(&format!("fresh\t{cells}"));
    }
    for line in [
        "fresh",
        "fresh\t",
        "fresh\t0",
        "fresh\t1025",
        "fresh\t18446744073709551617",
        "fresh\t04",
        "fresh\t-4",
        "fresh\t+4",
        "fresh\t4 ",
        "fresh\t4\t",
        "\tfresh\t4",
        "Fresh\t4",
        "fresh 4",
        "1\tfresh\t4",
    ] {
        assert_not_understood(line);
    }
}

#[test]
fn a_bad_fresh_keeps_the_memory_and_a_good_one_drops_it() {
    let input = b"fresh\t2\n1\tset\tk\t3\t5\t0\t0\nfresh\t0\n1\tget\tk\nfresh\t2\n1\tget\tk\n";
    let expected = [DONE, DONE, NOT_UNDERSTOOD, "0\t3\t5\t0\t0\t0", DONE, "8\t0\t-\t0\t0\t0"];
    assert_eq!(answers(input), expected);
}

#[test]
fn fresh_of_another_size_uses_the_front() {
    let mut input = String::from("fresh\t3\n");
    let mut expected = vec![DONE.to_string()];
    for key in ["a", "b", "c"] {
        input += &format!("1\tset\t{key}\t3\t5\t0\t0\n");
        expected.push(DONE.into());
    }
    input += "fresh\t1\n1\tget\ta\n1\tset\ta\t3\t1\t0\t0\n1\tset\tb\t3\t2\t0\t0\n1\tget\tb\n";
    expected.extend([DONE, "8\t0\t-\t0\t0\t0", DONE, "0\t0\t-\t0\t1\t1", "0\t3\t2\t0\t0\t0"].map(String::from));
    input += "fresh\t1024\n1\tget\ta\n1\tget\tc\n";
    expected.extend([DONE, "8\t0\t-\t0\t0\t0", "8\t0\t-\t0\t0\t0"].map(String::from));
    assert_eq!(answers(input.as_bytes()), expected);
}

#[test]
fn numbers_without_needless_zeros() {
    assert_understood("1\tset\tk\t3\t0\t0\t0");
    assert_understood("18446744073709551615\tset\tk\t3\t0\t0\t4294967295");
    assert_understood("1\tset\tk\t3\t0\t18446744073709551614\t0");
    assert_eq!(answer("1\tset\tk\t3\t0\t18446744073709551615\t0"), "7\t0\t-\t0\t0\t0");
    for line in [
        "01\tset\tk\t3\t0\t0\t0",
        "00\tset\tk\t3\t0\t0\t0",
        "\tset\tk\t3\t0\t0\t0",
        "-1\tset\tk\t3\t0\t0\t0",
        "-0\tset\tk\t3\t0\t0\t0",
        "+1\tset\tk\t3\t0\t0\t0",
        "1 \tset\tk\t3\t0\t0\t0",
        "1.0\tset\tk\t3\t0\t0\t0",
        "18446744073709551616\tset\tk\t3\t0\t0\t0",
        "100000000000000000000\tset\tk\t3\t0\t0\t0",
        "1\tset\tk\t03\t0\t0\t0",
        "1\tset\tk\t3\t0\t00\t0",
        "1\tset\tk\t3\t0\t-0\t0",
        "1\tset\tk\t3\t0\t\t0",
        "1\tset\tk\t3\t0\t18446744073709551616\t0",
        "1\tset\tk\t3\t0\t0\t00",
        "1\tset\tk\t3\t0\t0\t-1",
        "1\tset\tk\t3\t0\t0\t",
        "1\tset\tk\t3\t0\t0\t4294967296",
    ] {
        assert_not_understood(line);
    }
}

#[test]
fn weights() {
    for weight in ["0", "1", "-1", "10", "-10", "9223372036854775807", "-9223372036854775808"] {
        let input = format!("fresh\t4\n1\tset\tk\t3\t{weight}\t0\t0\n1\tget\tk\n");
        assert_eq!(answers(input.as_bytes())[1..], [DONE.to_string(), format!("0\t3\t{weight}\t0\t0\t0")]);
    }
    for weight in [
        "",
        "-",
        "-0",
        "--1",
        "-05",
        "05",
        "00",
        "+5",
        " 5",
        "5-",
        "1e3",
        "9223372036854775808",
        "-9223372036854775809",
        "18446744073709551615",
        "-18446744073709551616",
    ] {
        assert_not_understood(&format!("1\tset\tk\t3\t{weight}\t0\t0"));
    }
}

#[test]
fn booleans() {
    for boolean in ["0", "1"] {
        let input = format!("fresh\t4\n1\tset\tk\t1\t{boolean}\t0\t7\n1\tget\tk\n");
        assert_eq!(answers(input.as_bytes())[2], format!("0\t1\t{boolean}\t7\t0\t0"));
    }
    for boolean in ["", "2", "-1", "-0", "01", "true"] {
        assert_not_understood(&format!("1\tset\tk\t1\t{boolean}\t0\t0"));
    }
}

#[test]
fn texts_stand_as_their_bytes() {
    for text in ["", "-", "text", "12", "two words", "carriage\rreturn", "nul\0", "é"] {
        let input = format!("fresh\t4\n1\tset\tk\t4\t{text}\t0\t4294967295\n1\tget\tk\n");
        let expected = format!("{HEADER}1\t{DONE}\n2\t{DONE}\n3\t0\t4\t{text}\t4294967295\t0\t0\n");
        assert_eq!(replay(input.as_bytes()), expected.as_bytes());
    }
    let output = replay(b"fresh\t4\n1\tset\t\xFF\t4\t\x80\xFE\t0\t0\n1\tget\t\xFF\n");
    assert!(output.ends_with(b"3\t0\t4\t\x80\xFE\t0\t0\t0\n"));
}

#[test]
fn kinds() {
    for kind in 0..=255 {
        let expected = match kind {
            0 | 4 => DONE,
            1 | 3 => NOT_UNDERSTOOD,
            _ => "5\t0\t-\t0\t0\t0",
        };
        assert_eq!(answer(&format!("1\tset\tk\t{kind}\tany thing\t0\t0")), expected);
        let empty = answer(&format!("1\tset\tk\t{kind}\t\t0\t0"));
        assert_eq!(empty, expected);
    }
    for kind in ["256", "1000", "", "-1", "-0", "k", "18446744073709551616"] {
        assert_not_understood(&format!("1\tset\tk\t{kind}\t0\t0\t0"));
    }
    // The other fields are read for every kind.
    assert_not_understood("1\tset\tk\t5\t0\t-1\t0");
    assert_not_understood("1\tset\tk\t0\t0\t0\tx");
    assert_not_understood("1\tset\tk\t0\t0\t0");
}

#[test]
fn refusals_by_number() {
    assert_eq!(answer("0\tset\tk\t3\t0\t0\t0"), "2\t0\t-\t0\t0\t0");
    assert_eq!(answer("0\tget\t"), "2\t0\t-\t0\t0\t0");
    assert_eq!(answer("1\tset\t\t3\t0\t0\t0"), "3\t0\t-\t0\t0\t0");
    assert_eq!(answer("1\tdelete\t"), "3\t0\t-\t0\t0\t0");
    assert_eq!(answer("1\tdelete\tk"), DONE);
    assert_eq!(answer("1\tset\tk\t0\t\t0\t0"), DONE);
    assert_eq!(answer(&format!("1\tset\tk\t4\t{}\t0\t0", "x".repeat(128))), "12\t0\t-\t0\t0\t0");
}

#[test]
fn fields_are_exact() {
    for line in [
        "1",
        "1\tget",
        "1\tget\tk\t",
        "1\tget\tk\tx",
        "1\tdelete\tk\t",
        "1\tGet\tk",
        "1\t get\tk",
        "1\tget \tk",
        "1 get k",
        "1\tgets\tk",
        "1\tadd\tk",
        "get\tk",
        "1\tset\tk\t3\t0\t0\t0\t",
        "1\tset\tk\t3\t0\t0\t0\t0",
        "1\tset\tk\t3\t0\t0",
        "1\tset\tk\t4\ttab\tin it\t0\t0",
        "\t",
        "\t\t",
    ] {
        assert_not_understood(line);
    }
}

#[test]
fn carriage_returns_and_nul_are_ordinary_bytes() {
    assert_not_understood("fresh\t4\r");
    assert_not_understood("1\tset\tk\t3\t0\t0\t0\r");
    assert_not_understood("1\tset\tk\t3\t0\0\t0\t0");
    let input = b"fresh\t4\n1\tset\tk\r\t3\t5\t0\t0\n1\tget\tk\n1\tget\tk\r\n1\tset\t\0\t3\t6\t0\t0\n1\tget\t\0\n";
    let expected = [DONE, DONE, "8\t0\t-\t0\t0\t0", "0\t3\t5\t0\t0\t0", DONE, "0\t3\t6\t0\t0\t0"];
    assert_eq!(answers(input), expected);
}

#[test]
fn rounds_and_removed() {
    let input =
        b"fresh\t2\n1\tset\ta\t3\t1\t0\t0\n1\tset\tb\t3\t1\t5\t0\n6\tset\tc\t3\t1\t0\t0\n6\tget\ta\n6\tget\tc\n";
    let expected = [DONE, DONE, DONE, "0\t0\t-\t0\t1\t2", "8\t0\t-\t0\t0\t0", "0\t3\t1\t0\t0\t0"];
    assert_eq!(answers(input), expected);
}

#[test]
fn a_long_session_numbers_its_calls() {
    let input = "1\tget\tk\n".repeat(1_000);
    let output = String::from_utf8(replay(input.as_bytes())).unwrap();
    assert_eq!(output.lines().count(), 1_001);
    assert!(output.ends_with("\n1000\t1\t0\t-\t0\t0\t0\n"));
}
