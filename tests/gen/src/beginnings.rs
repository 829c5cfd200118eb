//! Good texts of each form that reach its limits, and every beginning of those with a byte put
//! after it.

use std::collections::BTreeSet;

use crate::form::Form;

/// The bytes put after a beginning: those that some form gives a meaning, letters of `all` and
/// `SESSION`, digits on both sides of the limits' last ones, and some of no meaning.
pub const BYTES: &[u8] = b"alALSNZz0124569_\",()=./\\*`- @[:~";

const KEEPS: [&str; 8] = [
    "0",
    "1",
    "10",
    "65535",
    "999999999",
    "4294967295",
    "4294967189",
    "3999999999",
];

const WORDS_ALL: [&str; 3] = ["all", "ALL", "aLl"];

const LOCATIONS: [&str; 7] = [
    "ftp://host/a.bin",
    "`-x",
    "a` b`\"c",
    "\\a(b,c)=*",
    "``",
    "`x`y",
    "a````b",
];

const ITEMS: [&str; 8] = [
    "Name",
    "a_1,b",
    "a=b,c",
    "a=\"b c\",d",
    "a=(b,\"c,d\"),e=f",
    "a=\"`\"``x\"",
    "a=`,b`=,c=(`),`x)",
    "a,b,c,d,e,f,g,h,i,j,k,l,m,n,o,p,q,r",
];

const TARGETS: [&str; 14] = [
    "/",
    "\\",
    ".",
    "..",
    "SESSION",
    "SESSION1",
    "SESSION*",
    "/system1/cpu*",
    "../.\\a1",
    "a65535",
    "/z9999/b60000",
    "a59999",
    "abcdefghijklmnop65535",
    "a1/abcdefghijklmnop*",
];

const PROPERTIES: [&str; 12] = [
    "Name",
    "a=b",
    "a_1==b",
    "a=\"\"",
    "a==\"b c\"",
    "a=(b)",
    "a==(b,\"c d\",`))",
    "a=`\"b`=",
    "a=x`yz``",
    "a=\"`\"`` `x\"",
    "a=-b/\\.*",
    "a=(\"\",\"`\"\",c)",
];

const TOPICS: [&str; 2] = ["show", "a_Z9"];

/// A name of so many bytes.
fn long_name(length: usize) -> String {
    "Name_0".chars().cycle().take(length).collect()
}

/// A list of so many items.
fn long_list(items: &[&str], count: usize) -> String {
    let items: Vec<&str> = items.iter().copied().cycle().take(count).collect();
    format!("({})", items.join(","))
}

/// Texts of the form, those at its limits among them.
pub fn good_texts(form: Form) -> Vec<String> {
    let owned = |texts: &[&str]| texts.iter().map(|text| text.to_string()).collect();
    let mut texts: Vec<String> = match form {
        Form::Keep => owned(&KEEPS),
        Form::Level => owned(&[&KEEPS[..], &WORDS_ALL].concat()),
        Form::Location => owned(&LOCATIONS),
        Form::Items => owned(&ITEMS),
        Form::Target => owned(&TARGETS),
        Form::Property => owned(&PROPERTIES),
        Form::Topic => owned(&TOPICS),
    };
    match form {
        Form::Keep | Form::Level | Form::Location => {}
        Form::Items => {
            texts.push(long_name(64));
            texts.push(format!("a,{}=b", long_name(64)));
            texts.push(format!("a={},b", long_list(&["x"], 16)));
            texts.push(format!("a={}", long_list(&["\"x y\"", "`,"], 16)));
        }
        Form::Target => {
            texts.push("/a1".repeat(16));
            texts.push(format!("a1{}", "\\b2".repeat(15)));
            texts.push(format!(".{}", "/..".repeat(15)));
            texts.push(format!("{}/a*", "/.".repeat(15)));
        }
        Form::Property => {
            texts.push(long_name(64));
            texts.push(format!("{}==b", long_name(64)));
            texts.push(format!("a={}", long_list(&["x"], 16)));
            texts.push(format!("a=={}", long_list(&["\"x y\"", "`)"], 16)));
        }
        Form::Topic => texts.push(long_name(64)),
    }
    texts
}

/// Every beginning of the form's good texts, whole ones too, alone and followed by each of the
/// bytes; a quote is also closed again, for a line's term leaves none open. Each text once.
pub fn texts(form: Form) -> BTreeSet<Vec<u8>> {
    let mut all = BTreeSet::new();
    for text in good_texts(form) {
        for length in 0..=text.len() {
            let beginning = &text.as_bytes()[..length];
            all.insert(beginning.to_vec());
            for &byte in BYTES {
                all.insert([beginning, &[byte]].concat());
            }
            all.insert([beginning, b"\"\""].concat());
        }
    }
    all
}

/// What stands in a line before a term of the form: by each option that takes it, and for a
/// property with and without a target before it.
pub fn heads(form: Form) -> &'static [&'static str] {
    match form {
        Form::Keep => &["cd -k ", "show -f -KEEP "],
        Form::Level => &["show -l ", "Show -level "],
        Form::Location => &["load -source ", "dump -destination "],
        Form::Items => &["show -d ", "cd -o ", "show -DISPLAY ", "set -output "],
        Form::Target => &["cd ", "show -l all  "],
        Form::Property => &["set ", "set / ", "show a=b "],
        Form::Topic => &["help ", "HELP -x a "],
    }
}

/// The text as a line's term, behind each of the form's heads.
pub fn lines(form: Form, text: &[u8]) -> impl Iterator<Item = Vec<u8>> + '_ {
    heads(form)
        .iter()
        .map(move |head| [head.as_bytes(), text].concat())
}
