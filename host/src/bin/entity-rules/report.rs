//! Outcomes in words.

use crate::blame::{Blame, Help};
use crate::checked::{Checked, Outcome, Spot};
use crate::constant::Always;
use crate::files::{Fault, Sheet, Unreadable};
use crate::hint::INSTANT;
use crate::printed::{name, visible};
use crate::source::Shown;
use crate::subject::Subject;
use crate::terminal::{columns, is_dumb, is_plain};
use entity_rules::{Defect, DefectNumber, Family, Instant, PathVerdict, Refusal};

/// The colours, or none.
pub struct Palette {
    on: bool,
}

/// Codes of a terminal's colours.
#[derive(Clone, Copy)]
pub enum Colour {
    Red = 31,
    Green = 32,
    Yellow = 33,
}

impl Palette {
    /// Colours for a terminal, unless its user wants none or it has none.
    pub fn new(is_terminal: bool) -> Self {
        Self {
            on: is_terminal && !is_plain() && !is_dumb(),
        }
    }

    pub fn paint(&self, colour: Colour, text: &str) -> String {
        match self.on {
            true => format!("\x1b[{}m{text}\x1b[0m", colour as u8),
            false => text.to_owned(),
        }
    }
}

/// What is said of a text that is not an instant.
pub const NO_INSTANT: &str = "the text is not an instant";

/// What is printed for one rule, path or text. A sheet that is at fault is named itself: the rule's, the schema's or the table's.
pub fn text(palette: &Palette, checked: &Checked) -> String {
    outcome(palette, checked.subject, &checked.outcome)
}

/// The same of an outcome that is lent.
pub fn outcome(palette: &Palette, about: Subject<'_>, outcome: &Outcome) -> String {
    let subject = subject(about);
    match outcome {
        Outcome::Accepted { passed } => {
            let word = palette.paint(Colour::Green, "accepted");
            format!("{subject}: {word}, {}\n", accepted(*passed))
        }
        Outcome::Marked { passed, constants } => {
            let word = palette.paint(Colour::Green, "accepted");
            let rows: String = constants.iter().map(Always::row).collect();
            format!("{subject}: {word}, {}\n{rows}", accepted(*passed))
        }
        Outcome::Defect {
            defect,
            at,
            over,
            blame,
            hint,
        } => {
            let rows = rows(
                defect,
                [at, over].map(Option::as_ref),
                blame.as_deref(),
                hint,
            );
            let place = placed(about, at.as_ref());
            let explanation = explained(defect.explanation(), blame.as_deref());
            defect_text(palette, &place, defect.number, &explanation, &rows)
        }
        Outcome::KeyDefect { fault, blame, hint } => {
            let shown = blame.iter().flat_map(|blame| {
                let help = blame.help.as_ref();
                let marks = marks(&visible(&blame.before), &visible(&blame.part), help);
                [("at", subject.clone()), ("", marks)]
            });
            let hint = hint.iter().map(|hint| ("hint", hint.clone()));
            let rows: Vec<_> = shown.chain(hint).collect();
            let told = PathVerdict::Defect(*fault).to_string();
            let explanation = explained(told, blame.as_deref());
            defect_text(
                palette,
                &subject,
                DefectNumber::Reference,
                &explanation,
                &rows,
            )
        }
        Outcome::Instant(instant) => {
            let word = palette.paint(Colour::Green, "accepted");
            let fields = instant_fields(instant).map(|(name, number)| format!("{name} {number}"));
            format!("{subject}: {word}, {}\n", fields.join(", "))
        }
        Outcome::NoInstant => {
            let rows = [("hint", INSTANT.to_owned())];
            defect_text(palette, &subject, DefectNumber::Instant, NO_INSTANT, &rows)
        }
        Outcome::Refused { refusal, fault } => {
            refused_text(palette, &subject, *refusal, fault.as_ref())
        }
        Outcome::Unreadable(unreadable) => {
            let word = palette.paint(Colour::Yellow, "unreadable");
            let file = name(unreadable.file.as_os_str());
            format!("{file}: {word}: {}\n", not_read(unreadable))
        }
    }
}

/// That something was refused, by the file and line at fault where there is one.
pub fn refused_text(
    palette: &Palette,
    subject: &str,
    refusal: Refusal,
    fault: Option<&Fault>,
) -> String {
    let word = format!("refused {} ({})", refusal.number(), refusal.word());
    faulty_text(palette, subject, &word, &refused(refusal, fault), fault)
}

/// That a file is of no use, in one word and in more, by the line at fault where there is one.
pub fn faulty_text(
    palette: &Palette,
    subject: &str,
    word: &str,
    told: &str,
    fault: Option<&Fault>,
) -> String {
    let word = palette.paint(Colour::Yellow, word);
    let shown = fault.and_then(Fault::shown);
    let place = match fault {
        Some(fault) => {
            let file = name(fault.file.as_os_str());
            let column = shown.map(|_| format!(":{}", fault.at.column));
            format!("{file}:{}{}", fault.at.line, column.unwrap_or_default())
        }
        None => subject.to_owned(),
    };
    let rows = shown.into_iter().flat_map(|shown| shown_rows(shown, None));
    let rows: String = rows.map(|(name, value)| row(name, &value)).collect();
    format!("{place}: {word}: {told}\n{rows}")
}

/// A line of JSON, with marks under the part at fault.
fn shown_rows(shown: &Shown, blame: Option<&Blame>) -> [(&'static str, String); 2] {
    let Shown {
        before,
        part,
        after,
    } = shown;
    let help = blame.and_then(|blame| blame.help.as_ref());
    [
        ("at", format!("{before}{part}{after}")),
        ("", marks(before, part, help)),
    ]
}

/// A row under a heading.
fn row(name: &str, value: &str) -> String {
    format!("  {name:<8}{value}\n")
}

/// What an outcome is about, as it is printed.
pub fn subject(subject: Subject<'_>) -> String {
    placed(subject, None)
}

/// The same with the line of the file, and for JSON the column, where they are known.
fn placed(subject: Subject<'_>, spot: Option<&Spot>) -> String {
    let at = spot.map(|spot| match spot.shown {
        Some(_) => {
            let start = spot.region.start;
            format!(":{}:{}", start.line, start.column)
        }
        None => format!(":{}", spot.line),
    });
    let at = at.unwrap_or_default();
    match subject {
        Subject::File(file) => format!("{}{at}", name(file.as_os_str())),
        Subject::InBook { book, serial } => {
            format!("{}{at}: sheet {serial}", name(book.as_os_str()))
        }
        Subject::Key(text) | Subject::Text(text) => name(text),
    }
}

/// The fields of an instant by their names.
pub fn instant_fields(instant: &Instant) -> [(&'static str, u32); 7] {
    [
        ("year", instant.year),
        ("month", instant.month),
        ("day", instant.day),
        ("hour", instant.hour),
        ("minute", instant.minute),
        ("second", instant.second),
        ("nanoseconds", instant.nanoseconds),
    ]
}

/// Says that all of the checks passed, and how many.
pub fn accepted(passed: u32) -> String {
    match passed {
        0 => "there was nothing to check".to_owned(),
        1 => "its 1 check passed".to_owned(),
        passed => format!("all {passed} checks passed"),
    }
}

/// What is wrong, with the names of the part at fault where there is one.
pub fn explained(explanation: String, blame: Option<&Blame>) -> String {
    blame.map_or(explanation, |blame| {
        format!("{}: {}", DefectNumber::Reference, blame.what)
    })
}

/// What entity-runtime says of a defect; where it has no sentence, what is wrong and then its word.
pub fn sentence(defect: &Defect) -> String {
    let word = &defect.message;
    match defect.family {
        Family::SemanticsKeyNotAvailable
        | Family::ConditionTooDeep
        | Family::CompareOperandNotAddressable
        | Family::QuantifierBindInvalid => format!("{}: `{word}`", defect.number),
        _ => word.clone(),
    }
}

/// Marks under the part at fault, after as many blanks as what is before it takes, and what helps.
fn marks(before: &str, part: &str, help: Option<&Help>) -> String {
    let marks = "^".repeat(columns(part).max(1));
    let help = help.map(|help| format!(" {}", help.text()));
    let space = " ".repeat(columns(before));
    format!("{space}{marks}{}", help.unwrap_or_default())
}

fn defect_text(
    palette: &Palette,
    place: &str,
    number: DefectNumber,
    explanation: &str,
    rows: &[(&'static str, String)],
) -> String {
    let word = format!("defect {} ({})", number.number(), number.word());
    let word = palette.paint(Colour::Red, &word);
    let mut text = format!("{place}: {word}: {explanation}\n");
    for (name, value) in rows {
        text.push_str(&row(name, value));
    }
    text
}

/// The rows under a defect: their names and what they say.
fn rows(
    defect: &Defect,
    [at, over]: [Option<&Spot>; 2],
    blame: Option<&Blame>,
    hint: &Option<String>,
) -> Vec<(&'static str, String)> {
    let family = defect.family;
    let told = Some(&defect.message).filter(|message| !message.is_empty());
    let told = told.map(|message| ("message", visible(message)));
    let mut rows: Vec<_> = told.into_iter().collect();
    rows.push(("path", visible(&defect.path)));
    match at.map(|spot| (spot, spot.shown.as_deref())) {
        Some((spot, Some(shown))) => {
            rows.extend(shown_rows(shown, blame));
            rows.push(("sheet", spot_text(spot)));
        }
        Some((spot, None)) => {
            rows.push(("at", spot_text(spot)));
            rows.extend(blame.map(|blame| ("", string_marks(spot, blame))));
        }
        None => {}
    }
    rows.extend(over.map(|spot| ("over", over_text(spot))));
    rows.extend(hint.iter().map(|hint| ("hint", hint.clone())));
    rows.push((
        "family",
        format!("{} {}, {family}", family.number(), family.name()),
    ));
    rows.push((
        "passed",
        match defect.passed {
            1 => "1 check before this one".to_owned(),
            passed => format!("{passed} checks before this one"),
        },
    ));
    rows
}

/// The rows for what an object must be opened for: the entry that reads in it, and marks under what it does not declare.
pub fn needed_rows(spot: &Spot, blame: Option<&Blame>) -> Vec<(&'static str, String)> {
    let line = format!("line {}, ", spot.line);
    let space = " ".repeat(line.len());
    let marks = blame.map(|blame| ("", format!("{space}{}", string_marks(spot, blame))));
    let entry = ("for", format!("{line}{}", spot_text(spot)));
    [entry].into_iter().chain(marks).collect()
}

fn spot_text(spot: &Spot) -> String {
    format!("entry {}, {}", spot.place, spot.text)
}

/// The same, in JSON with its line.
fn over_text(spot: &Spot) -> String {
    let line = spot.shown.as_ref().map(|_| format!("line {}, ", spot.line));
    format!("{}{}", line.unwrap_or_default(), spot_text(spot))
}

/// Marks under a part of an entry that is a string, which is printed in quotes.
fn string_marks(spot: &Spot, blame: &Blame) -> String {
    let escaped = |text: &str| {
        let quoted = format!("{text:?}");
        let open = quoted.strip_suffix('"').unwrap_or(&quoted);
        open.strip_prefix('"').unwrap_or(open).to_owned()
    };
    let before = format!("entry {}, string \"{}", spot.place, escaped(&blame.before));
    marks(&before, &escaped(&blame.part), blame.help.as_ref())
}

/// Why a call was refused.
pub fn refused(refusal: Refusal, fault: Option<&Fault>) -> String {
    match (refusal, fault) {
        (_, Some(fault)) => fault.told.clone(),
        (Refusal::Label, None) => {
            format!("{refusal}; expected another label, for instance by --label")
        }
        (refusal, None) => refusal.to_string(),
    }
}

/// What a file that cannot be read should have held, and why it cannot.
pub fn not_read(unreadable: &Unreadable) -> String {
    let sheet = match unreadable.sheet {
        Sheet::Schema => "schema sheet",
        Sheet::Rule => "rule sheet",
        Sheet::Table => "name table",
        Sheet::Book => "rule book",
        Sheet::Json => "rule in JSON",
        Sheet::Definition => "definition in JSON",
        Sheet::Any => "sheet",
    };
    let reason = &unreadable.reason;
    format!("expected a file that holds a {sheet}: {reason}")
}

/// How many rules, paths or texts there were of each outcome.
#[derive(Default)]
pub struct Counts {
    accepted: usize,
    defects: usize,
    refused: usize,
    unreadable: usize,
    /// Whether the schema or the table is refused or unreadable. Nothing is checked then.
    checks_nothing: bool,
}

impl Counts {
    pub fn count(&mut self, outcome: &Outcome) {
        if outcome.blames_what_is_shared() {
            self.checks_nothing = true;
            return;
        }
        let counter = match outcome {
            Outcome::Accepted { .. } | Outcome::Marked { .. } | Outcome::Instant(_) => {
                &mut self.accepted
            }
            Outcome::Defect { .. } | Outcome::KeyDefect { .. } | Outcome::NoInstant => {
                &mut self.defects
            }
            Outcome::Refused { .. } => &mut self.refused,
            Outcome::Unreadable(_) => &mut self.unreadable,
        };
        *counter = counter.saturating_add(1);
    }

    /// The exit status: that of the worst outcome.
    pub fn status(&self) -> u8 {
        match (self.defects, self.refused, self.unreadable) {
            _ if self.checks_nothing => 2,
            (0, 0, 0) => 0,
            (_, 0, 0) => 1,
            _ => 2,
        }
    }

    /// One line for all of so many rules, or whatever the noun says.
    pub fn summary(&self, total: usize, noun: &str) -> String {
        let Self {
            accepted,
            defects,
            refused,
            unreadable,
            ..
        } = self;
        let checked = [accepted, defects, refused, unreadable]
            .into_iter()
            .fold(0, |sum: usize, count| sum.saturating_add(*count));
        let some = |count: usize, word: &str| match count {
            0 => String::new(),
            count => format!(", {count} {word}"),
        };
        let unreadable = some(*unreadable, "unreadable");
        let left = some(total.saturating_sub(checked), "not checked");
        format!(
            "{total} {noun}: {accepted} accepted, {defects} with a defect, {refused} refused{unreadable}{left}"
        )
    }
}

#[cfg(test)]
mod tests {
    use super::*;

    #[test]
    fn nothing_steers_the_terminal() {
        assert_eq!(
            visible("a\x1b[31m\"b\\'é\n\u{202E}"),
            "a\\u{1b}[31m\"b\\'é\\n\\u{202e}"
        );
    }

    #[test]
    fn colours_only_where_they_are_on() {
        assert_eq!(Palette { on: false }.paint(Colour::Red, "x"), "x");
        assert_eq!(
            Palette { on: true }.paint(Colour::Red, "x"),
            "\x1b[31mx\x1b[0m"
        );
    }

    #[test]
    fn the_status_is_that_of_the_worst() {
        let counts = |accepted, defects, refused, unreadable| Counts {
            accepted,
            defects,
            refused,
            unreadable,
            checks_nothing: false,
        };
        let worst = [
            counts(2, 0, 0, 0),
            counts(1, 1, 0, 0),
            counts(1, 1, 1, 0),
            counts(0, 0, 1, 0),
            counts(1, 1, 0, 1),
        ];
        assert_eq!(worst.map(|counts| counts.status()), [0, 1, 2, 2, 2]);
        let checks_nothing = Counts {
            checks_nothing: true,
            ..Counts::default()
        };
        assert_eq!(checks_nothing.status(), 2);
    }

    #[test]
    fn one_is_not_many() {
        assert_eq!(
            [0, 1, 2].map(accepted),
            [
                "there was nothing to check",
                "its 1 check passed",
                "all 2 checks passed"
            ]
        );
    }
}
