//! Bad texts and bad images: every error has its line and message, and the program `contract` says them.

mod common;

use common::*;
use image::reading::{read, Kind};
use image::samples::{sample, samples, Sample};
use image::text::{parse, print, refusal};
use image::tree::*;
use image::writing::{write, write_fields, FieldKind};

// ---- bad texts

const BAD_TEXTS: [(&str, usize, &str); 47] = [
    ("", 1, "expected \"mode\", found the end of the text"),
    ("# only a comment\n\n", 3, "expected \"mode\", found the end of the text"),
    ("return true\n", 1, "expected \"mode\", found \"return\""),
    ("mode", 1, "expected 0 or 1 behind \"mode\", found the end of the text"),
    ("mode 2\n", 1, "expected 0 or 1 behind \"mode\", found \"2\""),
    ("mode@0-0:0:0 0\n", 1, "expected 0 or 1 behind \"mode\", found \"@0-0:0:0\""),
    ("mode 0\nmode 0\n", 2, "expected a statement, found \"mode\""),
    ("mode 0\n}\n", 2, "expected a statement, found \"}\""),
    ("mode 0\nelse {\n}\n", 2, "expected a statement, found \"else\""),
    ("mode 0\nverify true\nreturned true\n", 3, "expected a statement, found \"returned\""),
    ("mode 0\nreturn true true\n", 2, "expected a statement, found \"true\""),
    ("mode 0\nreturn\n", 3, "expected an expression, found the end of the text"),
    ("mode 0\nif variable {\n    return }\n", 3, "expected an expression, found \"}\""),
    ("mode 0\nif {\n}\n", 2, "expected an expression, found \"{\""),
    ("mode 0\nif variable\n    return true\n", 3, "expected \"{\", found \"return\""),
    ("mode 0\nif variable {\n} else\nreturn true\n", 4, "expected \"{\", found \"return\""),
    ("mode 0\nif variable {\n} else@1-2:3:4 {\n}\n", 3, "expected \"{\", found \"@1-2:3:4\""),
    (
        "mode 0\nif true {\n} else {\n    return true\n",
        5,
        "expected a statement or the \"}\" of the block that opens in line 3, found the end of the text",
    ),
    ("mode 0\nreturn variables\n", 2, "expected an expression, found \"variables\""),
    ("mode 0\nreturn -\n", 2, "expected an expression, found \"-\""),
    ("mode 0\nreturn (1)\n", 2, "expected an operation between two operands, found \")\""),
    ("mode 0\nreturn (1 && 2)\n", 2, "expected an operation between two operands, found \"&&\""),
    ("mode 0\nreturn (5 -3)\n", 2, "expected an operation between two operands, found \"-3\""),
    ("mode 0\nreturn (1 +\n)\n", 3, "expected an expression, found \")\""),
    ("mode 0\nreturn (1 + 1 + 1)\n", 2, "expected \")\", found \"+\""),
    ("mode 0\nreturn (1 + 1\n", 3, "expected \")\", found the end of the text"),
    ("mode 0\nreturn not true\n", 2, "expected \"(\", found \"true\""),
    ("mode 0\nreturn not(1 2)\n", 2, "expected \")\", found \"2\""),
    ("mode 0\nreturn bytes\n", 3, "expected \"(\", found the end of the text"),
    ("mode 0\nreturn bytes@1-2:3:4(00)\n", 2, "expected \"(\", found \"@1-2:3:4\""),
    ("mode 0\nreturn bytes(0)\n", 2, "\"0\" has an odd number of hex digits"),
    ("mode 0\nreturn bytes(0g)\n", 2, "expected hex digits, found \"0g\""),
    ("mode 0\nreturn bytes(00 ff)\n", 2, "expected \")\", found \"ff\""),
    ("mode 0\nreturn bytes(\n", 3, "expected \")\", found the end of the text"),
    ("mode 0\nreturn +1\n", 2, "expected a decimal number without plus sign and leading zeros, found \"+1\""),
    ("mode 0\nreturn 007\n", 2, "expected a decimal number without plus sign and leading zeros, found \"007\""),
    ("mode 0\nreturn -0\n", 2, "expected a decimal number without plus sign and leading zeros, found \"-0\""),
    ("mode 0\nreturn (1+1)\n", 2, "expected a decimal number without plus sign and leading zeros, found \"1+1\""),
    ("mode 0\nreturn -9223372036854775809\n", 2, "\"-9223372036854775809\" is outside the signed 64-bit numbers"),
    ("mode 0\ncsv 9223372036854775808\n", 2, "\"9223372036854775808\" is outside the signed 64-bit numbers"),
    ("mode 0\ncltv true\n", 2, "expected a number, found \"true\""),
    ("mode 0\nreturn true@1-2:3\n", 2, "expected a location @start-end:line:column, found \"@1-2:3\""),
    ("mode 0\nreturn true@01-2:3:4\n", 2, "expected a location @start-end:line:column, found \"@01-2:3:4\""),
    ("mode 0\nreturn true@-1-2:3:4\n", 2, "expected a location @start-end:line:column, found \"@-1-2:3:4\""),
    ("mode 0\nreturn true@1-2:3:4294967296\n", 2, "\"@1-2:3:4294967296\" has a number of over 32 bits"),
    ("mode 0\nreturn true @1-2:3:4\n", 2, "expected a statement, found \"@1-2:3:4\""),
    (
        "mode 0\nreturn \u{feff}0123456789012345678901234567890123456789\n",
        2,
        "expected an expression, found \"\\u{feff}012345678901234567890123456789012345678\"..",
    ),
];

#[test]
fn every_bad_text_has_its_line_and_message() {
    for (text, line, message) in BAD_TEXTS {
        let error = parse(text).unwrap_err();
        assert_eq!((error.line, error.message.as_str()), (line, message), "{text}");
        assert_eq!(run("image", text.as_bytes()), (1, vec![], format!("line {line}: {message}\n")), "{text}");
    }
}

/// A text of so many lines `return true` behind its head.
fn returns(count: usize) -> String {
    format!("mode 0\n{}", "return true\n".repeat(count))
}

/// A text of so many ifs inside each other, with a block inside the innermost.
fn ifs(levels: usize, block: &str) -> String {
    format!("mode 0\n{}{block}{}", "if true {\n".repeat(levels), "}\n".repeat(levels))
}

/// A text that returns a string of so many bytes.
fn string(length: usize) -> String {
    format!("mode 0\nreturn\nbytes({})\n", "5a".repeat(length))
}

/// A text with one expression of so many levels, its parentheses or its calls.
fn levels(count: usize, opening: &str, closing: &str) -> String {
    format!("mode 0\nreturn {}\ntrue{}\n", opening.repeat(count - 1), closing.repeat(count - 1))
}

/// The message of a text that is one over a size.
fn complaint(text: &str) -> String {
    parse(text).unwrap_err().to_string()
}

#[test]
fn each_size_is_allowed_and_one_more_is_not() {
    let allowed = [
        returns(most::STATEMENTS),
        ifs(most::STATEMENT_LEVEL, ""),
        ifs(most::STATEMENT_LEVEL - 1, "return true\n"),
        levels(most::EXPRESSION_LEVEL, "(", " and true)"),
        levels(most::EXPRESSION_LEVEL, "not(", ")"),
        // head 8, return 17, string 19
        string(most::BYTES - 44),
        nodes(most::NODES),
    ];
    for text in allowed {
        let image = write(&parse(&text).unwrap());
        assert_eq!(print(&read(&image).unwrap()), print(&parse(&text).unwrap()));
    }
    assert_eq!(complaint(&returns(513)), "line 514: more than 512 statements");
    assert_eq!(complaint(&ifs(16, "return true\n")), "line 18: a statement at level 17, the deepest is 16");
    assert_eq!(complaint(&ifs(17, "")), "line 18: a statement at level 17, the deepest is 16");
    assert_eq!(complaint(&levels(33, "(", " and true)")), "line 3: an expression at level 33, the deepest is 32");
    assert_eq!(complaint(&levels(33, "not(", ")")), "line 3: an expression at level 33, the deepest is 32");
    assert_eq!(complaint(&string(most::BYTES - 43)), "line 3: the image would be longer than 32768 bytes");
    assert_eq!(complaint(&string(65_535)), "line 3: the image would be longer than 32768 bytes");
    assert_eq!(complaint(&string(65_536)), "line 3: a string of 65536 bytes, the longest has 65535");
    assert_eq!(complaint(&nodes(1_025)), "line 3: more than 1024 expression nodes");
}

/// A text of two returns whose expressions have so many nodes together.
fn nodes(count: usize) -> String {
    let more = count - 1_023;
    let full = (1..9).fold("true".to_string(), |half, _| format!("({half} and {half})"));
    format!("mode 0\nreturn ({full} and {full})\nreturn {}true{}\n", "not(".repeat(more - 1), ")".repeat(more - 1))
}

#[test]
fn the_whole_image_is_counted_item_by_item() {
    let full = "mode 0\n".to_string()
        + &"csv 1\n".repeat(300)
        + "if length(variable) {\n} else {\n    verify ((true == not(1)) or (sha256(checksig) + false))\n}\n";
    let used = write(&parse(&full).unwrap()).len();
    let fill = |extra: usize| format!("{full}return bytes({})\n", "00".repeat(most::BYTES - used - 36 + extra));
    assert_eq!(write(&parse(&fill(0)).unwrap()).len(), most::BYTES);
    assert_eq!(complaint(&fill(1)), "line 306: the image would be longer than 32768 bytes");
}

#[test]
fn no_text_overflows_the_stack() {
    for opening in ["(", "not(", "(true and ", "sha256(length("] {
        let error = parse(&format!("mode 0\nreturn {}", opening.repeat(1_000_000))).unwrap_err();
        assert_eq!(error.to_string(), "line 2: an expression at level 33, the deepest is 32");
    }
    let error = parse(&format!("mode 0\n{}", "if true {} else { if true {\n".repeat(300_000))).unwrap_err();
    assert_eq!(error.to_string(), "line 10: a statement at level 17, the deepest is 16");
    assert_eq!(complaint(&"#\n ".repeat(300_000)), "line 300001: expected \"mode\", found the end of the text");
}

#[test]
fn no_edit_of_a_sample_makes_the_parser_panic() {
    for Sample { name, text, .. } in samples(".").unwrap() {
        let lines = text.lines().count();
        for (at, _) in text.char_indices() {
            let line = parse(&text[..at]).err().map_or(1, |error| error.line);
            assert!((1..=lines).contains(&line), "{name} cut at {at}");
            for extra in ["(", ")", "{", "}", "@", "-", "#", "0", " ", "\u{e9}"] {
                let edited = format!("{}{extra}{}", &text[..at], &text[at..]);
                let error = parse(&edited).err();
                assert!(error.is_none_or(|error| (1..=lines + 1).contains(&error.line)), "{edited}");
            }
        }
    }
}

// ---- bad images

/// The image of a text, with some bytes put in place of others.
fn edited(text: &str, at: usize, bytes: &[u8]) -> Vec<u8> {
    let mut image = write(&parse(text).unwrap());
    image.splice(at..(at + bytes.len()).min(image.len()), bytes.iter().copied());
    image
}

/// The image of a text, cut to a length.
fn cut(text: &str, length: usize) -> Vec<u8> {
    write(&parse(text).unwrap())[..length].to_vec()
}

/// A contract that the parser would not take, as its image.
fn oversized(statements: Vec<Stmt>) -> Vec<u8> {
    write(&Contract { mode: 0, statements })
}

/// Statements with so many expression nodes in all.
fn many_nodes(count: usize) -> Vec<Stmt> {
    let wide = (1..9).fold(Expr::new(Node::Variable), |half, _| Expr::two(Two::Logical(op::AND), half.clone(), half));
    let mut left = count;
    let mut list = vec![];
    while left > 0 {
        let next = if left >= wide.nodes() { wide.clone() } else { Expr::new(Node::Variable) };
        left -= next.nodes();
        list.push(Stmt::new(StmtKind::Verify(next)));
    }
    list
}

/// The text whose image is spoiled: the if stands at 8, its condition at 30, verify at 47, its sum at 64, the numbers at 82 and 107,
/// csv at 132, return at 158, the boolean at 175; the image has 193 bytes.
const GOOD: &str = "mode 0\nif variable {\n    verify (1 + 2)\n} else {\n    csv 7\n    return true\n}\n";

/// A bad image: the kind of its fault, its bytes, and what is said of it.
type BadImage = (Kind, Vec<u8>, &'static str);

/// Faults of the head.
fn bad_heads() -> Vec<BadImage> {
    vec![
        (Kind::TooLong, vec![0; 32_769], "refused 8 at 0: the image is longer than 32768 bytes (line 1 of the text)"),
        (Kind::NotMarked, vec![], "refused 1 at 0: the image does not begin with the bytes BVN (line 1 of the text)"),
        (Kind::NotMarked, b"BVC".to_vec(), "refused 1 at 0: the image does not begin with the bytes BVN (line 1 of the text)"),
        (Kind::OtherVersion, edited(GOOD, 3, &[1, 2]), "refused 2 at 3: the version is 258, not 1 (line 1 of the text)"),
        (Kind::BadMode, edited(GOOD, 5, &[2]), "refused 4 at 5: mode 2 is unknown (line 1 of the text)"),
        (Kind::CutShort, cut(GOOD, 3), "refused 3 at 3: the image ends in this field of the head (line 1 of the text)"),
        (Kind::CutShort, cut(GOOD, 5), "refused 3 at 5: the image ends in this field of the head (line 1 of the text)"),
        (Kind::CutShort, cut(GOOD, 7), "refused 3 at 6: the image ends in this field of the head (line 1 of the text)"),
    ]
}

/// Items that are cut.
fn cut_items() -> Vec<BadImage> {
    let string = cut("mode 0\nreturn bytes(0102)\n", 45);
    vec![
        (Kind::CutShort, cut(GOOD, 16), "refused 3 at 8: the image ends in the field at byte 13 (line 2 of the text)"),
        (Kind::CutShort, cut(GOOD, 113), "refused 3 at 107: the image ends in the field at byte 112 (line 3 of the text)"),
        (Kind::CutShort, cut(GOOD, 192), "refused 3 at 175: the image ends in the field at byte 192 (line 6 of the text)"),
        (Kind::CutShort, string, "refused 3 at 25: the image ends in the field at byte 44 (line 2 of the text)"),
        (Kind::TagMissing, cut(GOOD, 8), "refused 3 at 8: the image ends where the tag of an item is due (line 2 of the text)"),
        (Kind::TagMissing, cut(GOOD, 132), "refused 3 at 132: the image ends where the tag of an item is due (line 5 of the text)"),
        (Kind::TagMissing, cut(GOOD, 175), "refused 3 at 175: the image ends where the tag of an item is due (line 6 of the text)"),
    ]
}

/// Items with a byte that means nothing.
fn bad_items() -> Vec<BadImage> {
    let flag = "refused 4 at 8: else flag 2 is neither 0 nor 1, in the field at byte 25 (line 2 of the text)";
    let boolean = "refused 4 at 175: boolean 3 is neither 0 nor 1, in the field at byte 192 (line 6 of the text)";
    vec![
        (Kind::TagUnknown, edited(GOOD, 8, &[16]), "refused 4 at 8: tag 16 is unknown where a statement is due (line 2 of the text)"),
        (Kind::TagUnknown, edited(GOOD, 30, &[9]), "refused 4 at 30: tag 9 is unknown where an expression is due (line 2 of the text)"),
        (Kind::TagUnknown, edited(GOOD, 107, &[4]), "refused 4 at 107: tag 4 is unknown where an expression is due (line 3 of the text)"),
        (Kind::TagUnknown, edited(GOOD, 158, &[255]), "refused 4 at 158: tag 255 is unknown where a statement is due (line 6 of the text)"),
        (Kind::OpUnknown, edited(GOOD, 81, &[4]), "refused 4 at 64: op 4 is unknown, in the field at byte 81 (line 3 of the text)"),
        (Kind::OpUnknown, edited(GOOD, 149, &[2]), "refused 4 at 132: op 2 is unknown, in the field at byte 149 (line 5 of the text)"),
        (Kind::BadFlag, edited(GOOD, 25, &[2]), flag),
        (Kind::BadBoolean, edited(GOOD, 192, &[3]), boolean),
    ]
}

/// Images of more than a contract may have.
fn bad_sizes() -> Vec<BadImage> {
    let expression = vec![Stmt::new(StmtKind::Verify(Expr::one(One::Length, deepest())))];
    let statement = vec![nested(most::STATEMENT_LEVEL + 1, false)];
    let behind = edited(GOOD, 193, &[4]);
    let behind_head = edited("mode 1\n", 8, &[0, 0]);
    vec![
        (Kind::TooDeep, oversized(expression), "refused 5 at 600: an expression at level 33, the deepest is 32 (line 2 of the text)"),
        (Kind::TooDeep, oversized(statement), "refused 5 at 600: a statement at level 17, the deepest is 16 (line 18 of the text)"),
        (Kind::TooMany, oversized(vec![end(); 513]), "refused 6 at 17416: more than 512 statements (line 514 of the text)"),
        (Kind::TooMany, oversized(many_nodes(1_025)), "refused 6 at 18011: more than 1024 expression nodes (line 6 of the text)"),
        (Kind::LeftOver, behind, "refused 7 at 193: the contract ends here, but the image has 1 byte more (line 7 of the text)"),
        (Kind::LeftOver, behind_head, "refused 7 at 8: the contract ends here, but the image has 2 bytes more (line 1 of the text)"),
    ]
}

#[test]
fn every_bad_image_has_its_message_and_line() {
    assert_eq!(write(&parse(GOOD).unwrap()).len(), 193);
    for (kind, image, message) in [bad_heads(), cut_items(), bad_items(), bad_sizes()].concat() {
        let fault = read(&image).unwrap_err();
        assert_eq!((fault.kind, refusal(&image, &fault).as_str()), (kind, message));
        assert_eq!(run("text", &image), (1, vec![], format!("{message}\n")));
    }
}

/// Gives every item of a list a start of its own, in the order of the image.
fn number_items(list: &mut [Stmt], next: &mut u32) {
    for item in list {
        item.location.start = count(next);
        match &mut item.kind {
            StmtKind::If { condition, then, otherwise } => {
                number_nodes(condition, next);
                number_items(then, next);
                number_items(otherwise.as_deref_mut().unwrap_or_default(), next);
            }
            StmtKind::Verify(operand) | StmtKind::Return(operand) => number_nodes(operand, next),
            StmtKind::Locktime { .. } => {}
        }
    }
}

/// The same for an expression.
fn number_nodes(expression: &mut Expr, next: &mut u32) {
    expression.location.start = count(next);
    match &mut expression.node {
        Node::One(_, operand) => number_nodes(operand, next),
        Node::Two(_, left, right) => {
            number_nodes(left, next);
            number_nodes(right, next);
        }
        _ => {}
    }
}

/// The next number, from 1.
fn count(next: &mut u32) -> u32 {
    *next += 1;
    *next
}

#[test]
fn the_line_of_a_fault_is_the_line_of_its_item() {
    let list = ["inheritance", "two-of-three"].map(|name| sample(name).unwrap().text);
    let mut statements: Vec<Stmt> =
        list.iter().flat_map(|text| parse(text).unwrap().statements).chain(statements().into_iter().skip(14)).collect();
    number_items(&mut statements, &mut 0);
    let contract = Contract { mode: 1, statements };
    let text = print(&contract);
    let (image, fields) = write_fields(&contract);
    for (number, field) in (1..).zip(fields.iter().filter(|field| field.kind == FieldKind::Tag)) {
        let mut spoiled = image.clone();
        spoiled[field.start] = 0;
        let fault = read(&spoiled).unwrap_err();
        let line = text.lines().nth(fault.line - 1).unwrap();
        assert_eq!((fault.kind, fault.item), (Kind::TagUnknown, field.start));
        assert!(line.contains(&format!("@{number}-")), "item {number} is not in line {}: {line}", fault.line);
    }
}

// ---- the program

#[test]
fn wrong_usage_is_told() {
    for words in [vec![], vec!["images"], vec!["image", "text"], vec!["text", "x"], vec!["--help"]] {
        let output = output(&words, b"mode 0\n");
        assert_eq!((output.status.code(), output.stdout), (Some(2), vec![]));
        let usage = "usage: contract image < TEXT > IMAGE\n       contract text < IMAGE > TEXT\n";
        assert_eq!(String::from_utf8(output.stderr).unwrap(), usage);
    }
}

#[test]
fn input_is_bounded() {
    let long = "refused 8 at 0: the image is longer than 32768 bytes (line 1 of the text)\n";
    assert_eq!(run("text", &vec![b'B'; 1 << 24]), (1, vec![], long.to_string()));
    assert_eq!(run("image", &vec![b' '; (1 << 24) + 1]), (1, vec![], "line 1: the text is longer than 16777216 bytes\n".to_string()));
    let lines = "#\n".repeat(1 << 23) + "mode 0";
    assert_eq!(run("image", lines.as_bytes()), (1, vec![], "line 8388609: the text is longer than 16777216 bytes\n".to_string()));
    let blank = "line 1: expected \"mode\", found the end of the text\n";
    assert_eq!(run("image", &vec![b' '; 1 << 24]), (1, vec![], blank.to_string()));
}

#[test]
fn a_text_that_is_no_text_is_told() {
    assert_eq!(run("image", b"mode 0\nreturn \xff\n"), (1, vec![], "line 2: the text is not UTF-8\n".to_string()));
    assert_eq!(run("image", b"BVN\0\x01\0\0\0"), (1, vec![], "line 1: expected \"mode\", found \"BVN\\0\\u{1}\\0\\0\\0\"\n".to_string()));
}
