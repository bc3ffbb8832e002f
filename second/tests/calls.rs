//! Calls as text: one line of each call, and lines of another form.

use second::calls::answered;

/// Lines with their answers.
const LINES: [(&str, &str); 40] = [
    ("decode 8 2 4c", "0 0 finite 0 0 3"),
    ("decode 8 2 ff", "0 0 finite 1 -24 1"),
    ("decode 8 2 80", "0 0 nar"),
    ("decode 8 2 100", "3 0 zero"),
    ("encode 8 2 finite 1 0 3", "0 0 b4"),
    ("encode 8 2 finite 0 -2147483648 4294967295", "0 0 1"),
    ("encode 8 2 zero", "0 0 0"),
    ("encode 8 2 nar", "0 0 80"),
    ("compare 8 2 80 81", "0 0 less"),
    ("compare 8 2 1 ff", "0 0 greater"),
    ("compare 8 2 1 100", "3 1 equal"),
    ("negate 8 2 40", "0 0 c0"),
    ("op 8 2 3 40 4c", "0 0 33"),
    ("op 8 2 4 40 4c", "2 0 0"),
    ("add 8 2 40 40", "0 0 48"),
    ("sub 8 2 40 40", "0 0 0"),
    ("mul 8 2 7e 58", "0 0 7f"),
    ("div 8 2 40 0", "0 0 80"),
    ("fromfloat 8 2 3ff0000000000000", "0 0 40"),
    ("fromfloat 8 2 7ff8000000000000", "0 0 80"),
    ("tofloat 8 2 40", "0 0 value 3ff0000000000000"),
    ("tofloat 8 2 80", "0 0 nar"),
    ("tofloat 2 2 80", "1 0 value 0000000000000000"),
    ("rneg 8 2 10090", "0 0 2e180"),
    ("rop 8 2 0 10090 10090", "0 0 120a0"),
    ("rop 8 2 3 10090 0", "5 1 0"),
    ("inside 8 2 10090 10090", "0 0 yes"),
    ("meets 8 2 10090 0", "0 0 no"),
    ("below 8 2 0 10090", "0 0 yes"),
    ("below 8 2 40000000 10090", "3 0 no"),
    ("in 8 2 3ff0000000000000 4000000000000000", "0 0 10090"),
    ("in 8 2 4000000000000000 3ff0000000000000", "6 0 0"),
    (
        "out 8 2 10090",
        "0 0 3ff0000000000000 4000000000000000 0 0 0",
    ),
    ("out 8 2 201", "0 0 0000000000000000 0000000000000000 1 1 1"),
    ("column 8 2 0 1 1 10090 1 10090 3 a b c", "0 0 1 a 120a0 c"),
    ("column 8 2 0 3 1 10090 1 10090 3 a b c", "9 0 0 a b c"),
    ("sheet 8 2 1 10090 3 0 0 0 3 a b c", "0 0 2 10090 120a0 c"),
    ("sheet 8 2 0 0 0", "0 0 0"),
    ("file 9 52 53 48 1 0 8 2 0 0 1 a", "0 0 0 a"),
    ("file 0 0", "10 0 0"),
];

#[test]
fn one_of_each_call() {
    for (line, answer) in LINES {
        assert_eq!(answered(line), answer, "{line}");
    }
}

#[test]
fn lines_of_another_form() {
    let lines = [
        "",
        " ",
        "decode",
        "decode 8 2",
        "decode 8 2 40 40",
        "decode 8 2  40",
        "decode 8 2 xyz",
        "nothing 8 2 40",
        "add 8 2 40",
        "column 8 2 0 1 5 1",
        "sheet 8 2 0 1 100 0",
        "encode 8 2 finite 0 0",
        "decode -8 2 40",
    ];
    for line in lines {
        assert_eq!(answered(line), "bad line", "{line}");
    }
}
