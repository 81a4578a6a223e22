//! The inputs: calendars made by a fixed generator, inside the domain where both sides owe the same answer.

/// A small generator of numbers, the same at every run.
struct Dice(u64);

impl Dice {
    fn below(&mut self, n: u64) -> u64 {
        self.0 ^= self.0 << 13;
        self.0 ^= self.0 >> 7;
        self.0 ^= self.0 << 17;
        (self.0 >> 11) % n
    }

    fn pick<'a>(&mut self, words: &[&'a str]) -> &'a str {
        words[self.below(words.len() as u64) as usize]
    }

    fn sentence(&mut self, words: &[&str], bytes: usize) -> String {
        let mut text = String::from("Please");
        while text.len() < bytes {
            text.push(' ');
            text.push_str(self.pick(words));
        }
        text
    }
}

/// What the sentences and the names of a calendar are made of.
struct Speech {
    words: &'static [&'static str],
    names: &'static [&'static str],
}

const PLAIN: Speech = Speech {
    words: &[
        "bring",
        "the",
        "signed",
        "form",
        "to",
        "room",
        "before",
        "noon;",
        "agency",
        "visit:",
        "children,",
        "and",
        "parents",
        "meet",
        "us",
        "there",
    ],
    names: &["Berg, Ada", "Lind: Head", "Moss; Clerk", "Okoro, Ben", "Sato, Emi", "Diaz: Desk"],
};

/// As European languages have them: about one character in five is no ASCII.
const ACCENTED: Speech = Speech {
    words: &[
        "São",
        "João",
        "Łódź;",
        "für",
        "Gespräch,",
        "médecin",
        "à",
        "l’hôpital:",
        "señor",
        "Ağrı",
        "Žižka",
        "où",
        "before",
        "noon",
        "and",
        "there",
    ],
    names: &["Wiśniewski, Łukasz", "Müller: Büro", "Núñez; Año", "Conceição, Inês", "李, 小龙", "Çelik: Masa"],
};

/// Nearly all of their characters have two, three or four bytes.
const WIDE: &[&str] = &["李小龙", "Здравствуйте", "नमस्ते", "안녕하세요", "สวัสดี", "😀👍", "Γειά", "مرحبا"];

/// A feed of the kind, of as many bytes or a few less.
pub fn feed(kind: &str, bytes: usize) -> String {
    match kind {
        "calendar" => calendar("\r\n", &PLAIN, bytes),
        "lf-only" => calendar("\n", &PLAIN, bytes),
        "accents" => calendar("\r\n", &ACCENTED, bytes),
        "lower" => lower(bytes),
        "nested" => nested(bytes),
        "one-line" => one_line("Please bring the signed form to the desk.", bytes),
        "accented" => one_line(&ACCENTED.words.join(" "), bytes),
        "wide" => one_line(&WIDE.join(" "), bytes),
        "hostile" => hostile(bytes),
        "deep" => deep(bytes),
        "doubled" => doubled(bytes),
        "reordered" => reordered(bytes),
        "crowd" => crowd(bytes),
        "copied" => copied(bytes),
        "commas" => commas(bytes),
        _ => panic!("no feed is called {kind}"),
    }
}

/// Where the dice of every calendar begin.
const SEED: u64 = 0x9E37_79B9_7F4A_7C15;

/// Events of ten properties, one of them quoted and one folded.
fn calendar(end: &str, speech: &Speech, bytes: usize) -> String {
    let mut dice = Dice(SEED);
    wrapped("VCALENDAR", bytes, end, |n| event(&mut dice, n, end, speech, |note| format!("DESCRIPTION:{note}")))
}

/// The same, with the names of properties, BEGIN and END in lower case, as some relays send them.
fn lower(bytes: usize) -> String {
    let small = |line: &str| {
        let name = line.find([':', ';']).unwrap_or(0);
        line[..name].to_lowercase() + &line[name..]
    };
    calendar("\r\n", &PLAIN, bytes).split_inclusive("\r\n").map(small).collect()
}

/// A calendar with each event twice.
fn doubled(bytes: usize) -> String {
    let mut dice = Dice(SEED);
    let mut once = String::new();
    wrapped("VCALENDAR", bytes, "\r\n", |n| {
        if n % 2 == 0 {
            once = event(&mut dice, n, "\r\n", &PLAIN, |note| format!("DESCRIPTION:{note}"));
        }
        once.clone()
    })
}

/// Attendees with four parameters, each twice: the second time backwards, with the names in small letters.
fn reordered(bytes: usize) -> String {
    let mut dice = Dice(SEED);
    let mut once = (String::new(), [const { String::new() }; 4]);
    wrapped("VCALENDAR", bytes, "\r\n", |n| {
        if n % 2 == 0 {
            let given = [
                format!("CN=\"{}\"", dice.pick(PLAIN.names)),
                format!("ROLE={}", dice.pick(&["CHAIR", "REQ-PARTICIPANT"])),
                format!("PARTSTAT={}", dice.pick(&["ACCEPTED", "TENTATIVE"])),
                format!("RSVP={}", dice.pick(&["TRUE", "FALSE"])),
            ];
            once = (format!("mailto:{}@agency.example", dice.below(900)), given);
            return attended("ATTENDEE", once.1.iter().cloned(), &once.0);
        }
        let small = |given: &String| {
            let (name, value) = given.split_once('=').unwrap();
            format!("{}={value}", name.to_lowercase())
        };
        attended("attendee", once.1.iter().rev().map(small), &once.0)
    })
}

/// Two attendees with as many parameters as there is room for, each another one, and in the second backwards: what counting them takes most for.
fn crowd(bytes: usize) -> String {
    let room = (bytes - 120) / 2;
    let mut given: Vec<String> = Vec::new();
    let mut length = 0;
    for n in 0.. {
        let name = letters(n);
        length += 1 + name.len();
        if length > room {
            break;
        }
        given.push(name);
    }
    let one = attended("ATTENDEE", given.iter().cloned(), "x");
    let other = attended("ATTENDEE", given.iter().rev().cloned(), "x");
    format!("BEGIN:VCALENDAR\r\n{one}{other}END:VCALENDAR\r\n")
}

/// The n-th word of letters, the shortest first.
fn letters(n: usize) -> String {
    let last = char::from(b'A' + (n % 26) as u8);
    if n < 26 { last.to_string() } else { letters(n / 26 - 1) + &last.to_string() }
}

fn attended(name: &str, given: impl Iterator<Item = String>, value: &str) -> String {
    let given: String = given.map(|parameter| format!(";{parameter}")).collect();
    format!("BEGIN:VEVENT\r\n{name}{given}:{value}\r\nEND:VEVENT\r\n")
}

/// A calendar and its copy by an agency that escapes commas. A name that the Rust does not know: it would unescape a DESCRIPTION when it reads it.
fn copied(bytes: usize) -> String {
    let events = bytes / 2 / 400;
    let one = |note: fn(String) -> String| {
        let mut dice = Dice(SEED);
        let all: String = (0..events).map(|n| event(&mut dice, n, "\r\n", &PLAIN, note)).collect();
        format!("BEGIN:VCALENDAR\r\n{all}END:VCALENDAR\r\n")
    };
    let plain = one(|note| format!("NOTE:{note}"));
    let copy = one(|note| format!("NOTE:{}", note.replace(',', "\\,")));
    format!("BEGIN:PAIR\r\n{plain}{copy}END:PAIR\r\n")
}

/// An event whose last line is made of a sentence.
fn event(dice: &mut Dice, n: usize, end: &str, speech: &Speech, last: fn(String) -> String) -> String {
    let (day, hour) = (10 + dice.below(20), 10 + dice.below(10));
    let lines = [
        "BEGIN:VEVENT".into(),
        format!("UID:{n:06}@agency.example"),
        format!("DTSTAMP:202611{day}T{hour}1530Z"),
        format!("DTSTART;TZID=Europe/Berlin:202612{day}T{hour}0000"),
        format!("DTEND:202612{day}T{}0000Z", hour + 1),
        format!("SUMMARY:{} of the district", dice.pick(&["Visit", "Hearing", "Training"])),
        format!("LOCATION:Room {}", dice.below(90)),
        format!("CLASS:{}", dice.pick(&["PUBLIC", "PRIVATE"])),
        format!("SEQUENCE:{}", dice.below(7)),
        format!("ORGANIZER;CN=\"{}\":mailto:desk{}@agency.example", dice.pick(speech.names), dice.below(9)),
        last({
            let length = 64 + dice.below(48) as usize;
            dice.sentence(speech.words, length)
        }),
        "END:VEVENT".into(),
    ];
    lines.iter().map(|line| folded(line, end)).collect()
}

/// Many small components, three deep.
fn nested(bytes: usize) -> String {
    wrapped("VCALENDAR", bytes, "\r\n", |n| {
        format!("BEGIN:VEVENT\r\nUID:{n}\r\nBEGIN:VALARM\r\nACTION:AUDIO\r\nEND:VALARM\r\nEND:VEVENT\r\n")
    })
}

/// Components inside each other as deep as may be, over and over: with the one around them there are 64 levels.
fn deep(bytes: usize) -> String {
    let nest = format!("{}UID:7\r\n{}", "BEGIN:A\r\n".repeat(63), "END:A\r\n".repeat(63));
    wrapped("VCALENDAR", bytes, "\r\n", |_| nest.clone())
}

/// Tens of thousands of small components, each followed by a property of its parent: a search of all properties for each would take
/// time that grows with the square.
fn hostile(bytes: usize) -> String {
    wrapped("VCALENDAR", bytes, "\r\n", |_| "BEGIN:A\r\nEND:A\r\nK:v\r\n".into())
}

/// One property whose line takes up all there is, of these words over and over.
fn one_line(words: &str, bytes: usize) -> String {
    let value = format!("{words} ").repeat(bytes / words.len() + 1);
    described(&value[..within(&value, bytes - described("").len())])
}

/// The same of commas alone, half as many: each is written as two bytes.
fn commas(bytes: usize) -> String {
    described(&",".repeat(bytes / 2))
}

fn described(value: &str) -> String {
    format!("BEGIN:VEVENT\r\nDESCRIPTION:{value}\r\nEND:VEVENT\r\n")
}

fn wrapped(name: &str, bytes: usize, end: &str, mut part: impl FnMut(usize) -> String) -> String {
    let mut feed = format!("BEGIN:{name}{end}");
    let last = format!("END:{name}{end}");
    for n in 0.. {
        let next = part(n);
        if feed.len() + next.len() + last.len() > bytes {
            break;
        }
        feed.push_str(&next);
    }
    feed + &last
}

/// The last place where a character starts, within so many bytes.
fn within(text: &str, bytes: usize) -> usize {
    (0..=bytes).rev().find(|&at| text.is_char_boundary(at)).unwrap_or(0)
}

/// The line with its break, folded as RFC 5545, section 3.1, asks.
fn folded(line: &str, end: &str) -> String {
    let (mut rest, mut width, mut text) = (line, 75, String::new());
    while rest.len() > width {
        let (piece, behind) = rest.split_at(within(rest, width));
        text.push_str(piece);
        text.push_str(end);
        text.push(' ');
        (rest, width) = (behind, 74);
    }
    text + rest + end
}
