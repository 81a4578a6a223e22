//! The rows of the table. Each does the same work on both sides, between the clock's `start` and `stop`; what the other side
//! returns is freed behind `stop`, but for the lines and values, of which each is freed before the next, as the Rust's writer does.
use crate::clock::Clock;
#[cfg(libical)]
use crate::libical;
use crate::ours::{self, Lent};
use icalendar::parser::oracle::{escaped, folded, quoted, unescaped, written};
use icalendar::parser::{Component, Parameter, Property, read_component, unfold};
use std::hint::black_box;

pub struct Row {
    pub name: &'static str,
    /// The feeds, by kind and bytes.
    pub feeds: &'static [(&'static str, usize)],
    /// What the work is done on, of a feed.
    pub parts: fn(String) -> Vec<String>,
    pub ours: fn(&[String], &mut Lent, &mut Clock),
    /// The Rust, in the row `libical` that library, and in the row `pair` our one call. What is lent is for that one alone.
    pub theirs: fn(&[String], &mut Lent, &mut Clock),
    /// Whether both sides give the same, in whole; of libical's answer the rows are counted.
    pub same: fn(&[String], &mut Lent) -> bool,
}

/// The Rust reads an LF-only feed in time that grows with its square: 1 MiB would take it 20 seconds.
const FEEDS: &[(&str, usize)] = &[
    ("calendar", 1 << 20),
    ("calendar", 1 << 19),
    ("calendar", 1 << 18),
    ("lf-only", 1 << 18),
    ("nested", 1 << 20),
    ("one-line", 1 << 20),
];

pub const ROWS: &[Row] = &[
    UNFOLD,
    READ,
    READ_LOWER,
    PAIR,
    FOLD,
    STRICT,
    QUOTE,
    WRITE,
    TWINS,
    ORDERS,
    TEXT,
    ESCAPE,
    LOOSE,
    #[cfg(libical)]
    LIBICAL,
];

const UNFOLD: Row = Row {
    name: "unfold",
    feeds: FEEDS,
    parts: |feed| vec![feed],
    ours: |parts, lent, clock| {
        let feed = black_box(parts[0].as_bytes());
        clock.start();
        black_box(ours::unfold(feed, &mut lent.text));
        clock.stop();
    },
    theirs: |parts, _, clock| {
        let feed = black_box(parts[0].as_str());
        clock.start();
        let text = black_box(unfold(feed));
        clock.stop();
        drop(text);
    },
    same: |parts, lent| {
        let [answer, _, length] = ours::unfold(parts[0].as_bytes(), &mut lent.text);
        answer == 0 && lent.text[..length] == *unfold(&parts[0]).as_bytes()
    },
};

const READ: Row = Row {
    name: "read",
    feeds: FEEDS,
    parts: |feed| vec![feed],
    ours: our_read,
    theirs: |parts, _, clock| {
        let feed = black_box(parts[0].as_str());
        clock.start();
        let text = unfold(feed);
        let tree = black_box(read_component(&text));
        clock.stop();
        drop(tree);
    },
    same: |parts, lent| {
        let numbers = ours::read(parts[0].as_bytes(), lent);
        let text = unfold(&parts[0]);
        let mut tables = Tables { lent, counts: [0; 3] };
        numbers[0] == 0 && tables.hold(&read_component(&text).unwrap()) && numbers[3..] == tables.counts
    },
};

/// Where keys are no capital letters, each byte of them is looked at by itself.
const READ_LOWER: Row = Row { feeds: &[("lower", 1 << 20)], ..READ };

/// Measuring, allocating just the rows that it told, and filling, beside the one call into tables that stand ready.
const PAIR: Row = Row {
    name: "pair",
    feeds: &[
        ("calendar", 1 << 20),
        ("calendar", 1 << 19),
        ("calendar", 1 << 18),
        ("lf-only", 1 << 18),
        ("nested", 1 << 20),
        ("hostile", 1 << 20),
        ("one-line", 1 << 20),
    ],
    parts: |feed| vec![feed],
    ours: |parts, lent, clock| {
        let feed = black_box(parts[0].as_bytes());
        clock.start();
        let filled = black_box(ours::measure_and_fill(feed, &mut lent.text));
        clock.stop();
        drop(filled);
    },
    theirs: our_read,
    same: |parts, lent| {
        let feed = parts[0].as_bytes();
        let numbers = ours::read(feed, lent);
        let mut text = vec![0; lent.text.len()];
        let filled = ours::measure_and_fill(feed, &mut text);
        numbers[0] == 0
            && filled.numbers == numbers
            && text[..numbers[2]] == lent.text[..numbers[2]]
            && filled.components == lent.components[..4 * numbers[3]]
            && filled.properties == lent.properties[..5 * numbers[4]]
            && filled.parameters == lent.parameters[..6 * numbers[5]]
    },
};

const FOLD: Row = Row {
    name: "fold",
    feeds: FEEDS,
    parts: |feed| unfold(&feed).lines().map(str::to_owned).collect(),
    ours: |lines, lent, clock| over_all(ours::fold_line, lines, lent, clock),
    theirs: |lines, _, clock| each(folded, lines, clock),
    same: |lines, lent| all_same(ours::fold_line, folded, lines, lent),
};

/// The strict fold, which takes accents, and the Rust's, which cuts elsewhere: what both unfold to is compared.
const STRICT: Row = Row {
    name: "strict",
    feeds: &[
        ("calendar", 1 << 20),
        ("accents", 1 << 20),
        ("one-line", 1 << 20),
        ("accented", 1 << 20),
        ("accented", 1 << 19),
        ("wide", 1 << 20),
    ],
    ours: |lines, lent, clock| over_all(ours::fold_strict, lines, lent, clock),
    same: |lines, lent| {
        lines.iter().all(|line| {
            let [answer, _, length] = ours::fold_strict(line.as_bytes(), &mut lent.out);
            let strict = std::str::from_utf8(&lent.out[..length]).unwrap();
            answer == 0 && strict.split("\r\n").all(|physical| physical.len() <= 75) && unfold(strict) == unfold(&folded(line))
        })
    },
    ..FOLD
};

const QUOTE: Row = Row {
    name: "quote",
    feeds: FEEDS,
    parts: |feed| values(&feed),
    ours: |values, lent, clock| over_all(ours::quote, values, lent, clock),
    theirs: |values, _, clock| each(quoted, values, clock),
    same: |values, lent| all_same(ours::quote, quoted, values, lent),
};

/// The tables of a reading written, and the Rust's tree of the same feed; neither reading is timed.
const WRITE: Row = Row {
    name: "write",
    feeds: &[
        ("calendar", 1 << 20),
        ("calendar", 1 << 19),
        ("nested", 1 << 20),
        ("hostile", 1 << 20),
        ("hostile", 1 << 19),
        ("accents", 1 << 20),
    ],
    parts: |feed| vec![feed],
    ours: |parts, lent, clock| {
        let told = ours::read(parts[0].as_bytes(), lent);
        clock.start();
        black_box(ours::write(black_box(told), lent));
        clock.stop();
    },
    theirs: |parts, _, clock| {
        let text = unfold(&parts[0]);
        let tree = read_component(&text).unwrap();
        clock.start();
        let feed = black_box(written(black_box(&tree)));
        clock.stop();
        drop(feed);
    },
    same: |parts, lent| {
        let told = ours::read(parts[0].as_bytes(), lent);
        let [answer, _, length] = ours::write(told, lent);
        let feed = String::from_utf8(lent.out[..length].to_vec()).unwrap();
        answer == 0 && unquoted(&feed) == unquoted(&written(&read_component(&unfold(&parts[0])).unwrap()))
    },
};

/// Each component below the first compared with the one before it, and the Rust's `==` on its own trees; neither reading is timed. In `doubled`
/// every other pair is equal. Ours checks the tables first, once.
const TWINS: Row = Row {
    name: "twins",
    feeds: &[("calendar", 1 << 20), ("calendar", 1 << 19), ("nested", 1 << 20), ("doubled", 1 << 20), ("deep", 1 << 20)],
    parts: |feed| vec![feed],
    ours: |parts, lent, clock| {
        let told = ours::read(parts[0].as_bytes(), lent);
        clock.start();
        black_box(ours::neighbours(black_box(told), lent));
        clock.stop();
    },
    theirs: |parts, _, clock| {
        let text = unfold(&parts[0]);
        let tree = read_component(&text).unwrap();
        clock.start();
        black_box(like_before(black_box(&tree)));
        clock.stop();
    },
    same: |parts, lent| {
        let told = ours::read(parts[0].as_bytes(), lent);
        ours::neighbours(told, lent) == [0, 0, like_before(&read_component(&unfold(&parts[0])).unwrap())]
    },
};

/// How many components are equal to the one before them.
fn like_before(tree: &Component) -> usize {
    tree.components.windows(2).filter(|pair| pair[0] == pair[1]).count()
}

/// The same where twins have their parameters in another order, and names in another case. The Rust's `==` would not find them: its trees are compared
/// with names without case and with the parameters of each pair of properties sorted first, in memory of its own.
const ORDERS: Row = Row {
    name: "orders",
    feeds: &[("reordered", 1 << 20), ("reordered", 1 << 19), ("crowd", 1 << 20), ("crowd", 1 << 19), ("crowd", 1 << 18)],
    parts: |feed| vec![feed],
    ours: |parts, lent, clock| {
        let told = ours::read(parts[0].as_bytes(), lent);
        clock.start();
        black_box(ours::neighbours(black_box(told), lent));
        clock.stop();
    },
    theirs: |parts, _, clock| {
        let text = unfold(&parts[0]);
        let tree = read_component(&text).unwrap();
        clock.start();
        black_box(twins_before(black_box(&tree)));
        clock.stop();
    },
    same: |parts, lent| {
        let told = ours::read(parts[0].as_bytes(), lent);
        let text = unfold(&parts[0]);
        let tree = read_component(&text).unwrap();
        like_before(&tree) == 0 && twins_before(&tree) > 0 && ours::neighbours(told, lent) == [0, 0, twins_before(&tree)]
    },
};

/// How many components are twins of the one before them.
fn twins_before(tree: &Component) -> usize {
    tree.components.windows(2).filter(|pair| are_twins(&pair[0], &pair[1])).count()
}

/// Names without case, equal values, and the same parameters in any order.
fn are_twins(a: &Component, b: &Component) -> bool {
    alike(a, b, |p, q| p.name.as_str().eq_ignore_ascii_case(q.name.as_str()) && p.val == q.val && sorted(&p.params) == sorted(&q.params))
}

/// Whether two trees are equal but for properties that are the same by a test.
fn alike(a: &Component, b: &Component, same: fn(&Property, &Property) -> bool) -> bool {
    a.name == b.name
        && a.properties.len() == b.properties.len()
        && a.components.len() == b.components.len()
        && a.properties.iter().zip(&b.properties).all(|(p, q)| same(p, q))
        && a.components.iter().zip(&b.components).all(|(c, d)| alike(c, d, same))
}

fn sorted<'a>(given: &'a [Parameter]) -> Vec<(String, Option<&'a str>)> {
    let mut all: Vec<_> = given.iter().map(|p| (p.key.as_str().to_ascii_lowercase(), p.val.as_ref().map(|val| val.as_str()))).collect();
    all.sort_unstable();
    all
}

/// Texts: every value of a calendar, one of 1 MiB that has nothing to escape, and one of commas alone.
const TEXTS: &[(&str, usize)] =
    &[("calendar", 1 << 20), ("calendar", 1 << 19), ("one-line", 1 << 20), ("commas", 1 << 20), ("commas", 1 << 19)];

/// Values read as texts. The Rust's own text is copied where nothing was to be unescaped: ours stands in a buffer too.
const TEXT: Row = Row {
    name: "text",
    feeds: TEXTS,
    parts: |feed| values(&feed).iter().map(|value| escaped(value)).collect(),
    ours: |values, lent, clock| over_all(ours::read_text, values, lent, clock),
    theirs: |values, _, clock| each(unescaped_own, values, clock),
    same: |values, lent| all_same(ours::read_text, unescaped_own, values, lent),
};

/// Texts written as values.
const ESCAPE: Row = Row {
    name: "escape",
    feeds: TEXTS,
    parts: |feed| values(&feed),
    ours: |texts, lent, clock| over_all(ours::write_text, texts, lent, clock),
    theirs: |texts, _, clock| each(escaped, texts, clock),
    same: |texts, lent| all_same(ours::write_text, escaped, texts, lent),
};

/// A calendar compared with its copy, whose commas are escaped; the Rust's trees of both, with each value unescaped. Neither reading is timed.
const LOOSE: Row = Row {
    name: "loose",
    feeds: &[("copied", 1 << 20), ("copied", 1 << 19)],
    parts: |feed| vec![feed],
    ours: |parts, lent, clock| {
        let told = ours::read(parts[0].as_bytes(), lent);
        clock.start();
        black_box(ours::loose_twins(black_box(told), lent));
        clock.stop();
    },
    theirs: |parts, _, clock| {
        let text = unfold(&parts[0]);
        let tree = read_component(&text).unwrap();
        clock.start();
        black_box(alike_as_texts(black_box(&tree.components[0]), black_box(&tree.components[1])));
        clock.stop();
    },
    same: |parts, lent| {
        let told = ours::read(parts[0].as_bytes(), lent);
        let text = unfold(&parts[0]);
        let pair = read_component(&text).unwrap().components;
        ours::loose_twins(told, lent) == [0, 0, 1] && pair[0] != pair[1] && alike_as_texts(&pair[0], &pair[1])
    },
};

fn unescaped_own(value: &str) -> String {
    unescaped(value).into_owned()
}

/// Whether two trees are equal but for values that are the same text.
fn alike_as_texts(a: &Component, b: &Component) -> bool {
    alike(a, b, |p, q| p.name == q.name && unescaped(p.val.as_str()) == unescaped(q.val.as_str()) && p.params == q.params)
}

/// Every value of a feed.
fn values(feed: &str) -> Vec<String> {
    unfold(feed).lines().filter_map(|line| line.split_once(':')).map(|(_, value)| value.to_owned()).collect()
}

/// What both writers give alike: they fold elsewhere, and the Rust's raw writer sets no quotes.
fn unquoted(feed: &str) -> String {
    unfold(feed).replace('"', "")
}

/// The same reading beside libical's.
#[cfg(libical)]
const LIBICAL: Row = Row {
    name: "libical",
    feeds: FEEDS,
    parts: |feed| vec![feed],
    ours: our_read,
    theirs: |parts, _, clock| {
        let feed = black_box(libical::string(&parts[0]));
        clock.start();
        let tree = black_box(libical::parse(&feed));
        clock.stop();
        drop(tree);
    },
    same: |parts, lent| {
        let numbers = ours::read(parts[0].as_bytes(), lent);
        numbers[0] == 0 && libical::parse(&libical::string(&parts[0])).counts() == Some([numbers[3], numbers[4]])
    },
};

fn our_read(parts: &[String], lent: &mut Lent, clock: &mut Clock) {
    let feed = black_box(parts[0].as_bytes());
    clock.start();
    black_box(ours::read(feed, lent));
    clock.stop();
}

type Writes = fn(&[u8], &mut [u8]) -> [usize; 3];

/// Writes one part behind the other.
fn over_all(writes: Writes, parts: &[String], lent: &mut Lent, clock: &mut Clock) {
    let mut at = 0;
    clock.start();
    for part in parts {
        at += writes(part.as_bytes(), &mut lent.out[at..])[2];
    }
    clock.stop();
    black_box(at);
}

fn each(makes: fn(&str) -> String, parts: &[String], clock: &mut Clock) {
    clock.start();
    for part in parts {
        black_box(makes(part));
    }
    clock.stop();
}

fn all_same(writes: Writes, makes: fn(&str) -> String, parts: &[String], lent: &mut Lent) -> bool {
    parts.iter().all(|part| {
        let [answer, _, length] = writes(part.as_bytes(), &mut lent.out);
        answer == 0 && lent.out[..length] == *makes(part).as_bytes()
    })
}

/// The tables that were filled, and how many rows of each are looked at already.
struct Tables<'a> {
    lent: &'a Lent,
    counts: [usize; 3],
}

impl Tables<'_> {
    fn part(&self, start: u32, length: u32) -> &[u8] {
        &self.lent.text[start as usize..][..length as usize]
    }

    /// Whether the next component row, the properties behind it and its children are this tree. Properties stand before children in
    /// these feeds, so the rows stand in the tree's order.
    fn hold(&mut self, tree: &Component) -> bool {
        let row = self.counts[0];
        let word = &self.lent.components[row * 4..][..4];
        self.counts[0] += 1;
        self.part(word[2], word[3]) == tree.name.as_str().as_bytes()
            && tree.properties.iter().all(|property| {
                let at = self.counts[1];
                let word = &self.lent.properties[at * 5..][..5];
                self.counts[1] += 1;
                word[0] as usize == row
                    && self.part(word[1], word[2]) == property.name.as_str().as_bytes()
                    && self.part(word[3], word[4]) == property.val.as_str().as_bytes()
                    && property.params.iter().all(|parameter| {
                        let word = &self.lent.parameters[self.counts[2] * 6..][..6];
                        self.counts[2] += 1;
                        let value = (word[3] == 1).then(|| self.part(word[4], word[5]));
                        word[0] as usize == at
                            && self.part(word[1], word[2]) == parameter.key.as_str().as_bytes()
                            && value == parameter.val.as_ref().map(|v| v.as_str().as_bytes())
                    })
            })
            && tree
                .components
                .iter()
                .all(|child| self.lent.components[self.counts[0] * 4] as usize == row && self.hold(child))
    }
}
