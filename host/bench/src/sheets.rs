//! The sheets that are measured, made by size. All but those of early defects are accepted.

use model::number::bound;

/// One check: settings, the two sheets, and the number that is answered.
pub struct Sample {
    pub kind: u64,
    pub semantics: u64,
    pub schema: Vec<u8>,
    pub rule: Vec<u8>,
    pub number: u32,
}

impl Sample {
    /// A precondition or an operation's template, under service/1.
    fn new(schema: String, rule: String) -> Self {
        let kind = if rule.starts_with('R') { 2 } else { 4 };
        Self { kind, semantics: 2, schema: schema.into_bytes(), rule: rule.into_bytes(), number: 0 }
    }

    /// The same with a defect of that number.
    fn with_defect(self, number: u32) -> Self {
        Self { number, ..self }
    }

    pub fn bytes(&self) -> usize {
        self.schema.len() + self.rule.len()
    }
}

/// Samples of one shape: the sizes of the plot, and the size that the table has.
pub struct Group {
    pub name: &'static str,
    /// What the size counts.
    pub unit: &'static str,
    pub sizes: &'static [usize],
    pub listed: usize,
    pub make: fn(usize) -> Sample,
}

pub const GROUPS: [Group; 12] = [
    Group { name: "small", unit: "fields and conditions", sizes: &[1, 2, 4, 6, 8, 12, 16], listed: 4, make: small },
    Group { name: "typical", unit: "schema entries", sizes: &[51, 101, 201, 301, 401, 511, 611], listed: 611, make: typical },
    Group { name: "wide", unit: "siblings", sizes: &[100, 200, 350, 500, 650, 800, 1_000], listed: 1_000, make: wide },
    Group {
        name: "keys in no order",
        unit: "members of one object",
        sizes: &[100, 200, 350, 500, 650, 800, 1_000],
        listed: 1_000,
        make: strewn_keys,
    },
    Group { name: "deep", unit: "levels", sizes: &[8, 16, 24, 32, 40, 52, 64], listed: 64, make: deep },
    Group {
        name: "long texts",
        unit: "texts of 500 bytes in each sheet",
        sizes: &[4, 8, 16, 24, 32, 44, 56],
        listed: 56,
        make: long_texts,
    },
    Group { name: "many references", unit: "references", sizes: &[50, 100, 200, 350, 500, 700, 900], listed: 900, make: many_references },
    Group {
        name: "large rules",
        unit: "rule entries",
        sizes: &[100, 200, 400, 800, 1_200, 1_600, 2_048],
        listed: 2_048,
        make: large_rules,
    },
    Group {
        name: "full sheets",
        unit: "schema entries, twice as many of the rule",
        sizes: &[128, 256, 384, 512, 640, 832, 1_024],
        listed: 1_024,
        make: full_sheets,
    },
    Group { name: "templates", unit: "members", sizes: &[25, 50, 100, 200, 300, 400, 500], listed: 500, make: templates },
    Group {
        name: "early defect in a large rule",
        unit: "rule entries",
        sizes: &[100, 200, 400, 800, 1_200, 1_600, 2_048],
        listed: 2_048,
        make: |entries| all_forms(entries, &lost_reference()).with_defect(18),
    },
    Group {
        name: "early defect among many references",
        unit: "references",
        sizes: &[50, 100, 200, 350, 500, 700, 900],
        listed: 900,
        make: |count| works_of_bars(count, "$bar.lost").with_defect(18),
    },
];

/// Rules of long numbers, by what decides that they are finite.
pub const NUMBERS: [Group; 2] = [
    Group {
        name: "place of the first digit",
        unit: "numbers of 500 digits",
        sizes: &[2, 8, 16, 28, 40, 56],
        listed: 56,
        make: |count| numbers(count, 307),
    },
    Group {
        name: "309 digits compared",
        unit: "numbers of 500 digits",
        sizes: &[2, 8, 16, 28, 40, 56],
        listed: 56,
        make: |count| numbers(count, 308),
    },
];

fn text(value: &str) -> String {
    format!("V,5,{},{value}\n", value.len())
}

fn number(value: &str) -> String {
    format!("V,4,{},{value}\n", value.len())
}

/// A field without members.
fn plain(kind: usize, name: &str) -> String {
    format!("F,{kind},0,0,0,{},-,{name}\n", name.len())
}

fn object(name: &str, count: usize) -> String {
    format!("F,7,0,0,{count},{},-,{name}\n", name.len())
}

fn array(name: &str) -> String {
    format!("F,6,0,1,0,{},-,{name}\n", name.len())
}

fn each(count: usize, make: impl Fn(usize) -> String) -> String {
    (0..count).map(make).collect()
}

/// As many fields as conditions, each condition a bound for one field.
fn small(size: usize) -> Sample {
    let fields = each(size, |i| plain(2, &format!("weight_{i:02}")));
    let bounds = each(size, |i| format!("C,11,0,\n{}{}", text(&format!("$fields.weight_{i:02}")), number("12.5")));
    Sample::new(format!("H,0,{size},-,0\n{fields}"), format!("R,6,20,bounds weights are too low\nC,2,{size},\n{bounds}"))
}

/// Blocks of ten entries: an object of four fields, an array of objects of two fields, and one plain field. The rule has 30 entries,
/// conditions and quantifiers on blocks that are far apart.
pub fn typical(entries: usize) -> Sample {
    let blocks = (entries - 1) / 10;
    let parts = each(blocks, |i| {
        let inner = ["amount", "batch", "grade", "weight"].map(|name| plain(2, name)).concat();
        let element = format!("F,7,0,0,2,0,-,\n{}{}", plain(3, "length"), plain(1, "steel"));
        format!(
            "{}{inner}{}{element}{}",
            object(&format!("lot_{i:02}"), 4),
            array(&format!("lot_{i:02}_bars")),
            plain(1, &format!("lot_{i:02}_note"))
        )
    });
    let rule = of_blocks([0, (blocks - 1) / 2, blocks - 1, blocks - 1]);
    Sample::new(format!("H,0,{},-,0\n{parts}", 3 * blocks), rule)
}

/// A rule of 30 entries: bounds and quantifiers on three blocks, and a bound on a fourth.
fn of_blocks([first, second, third, last]: [usize; 4]) -> String {
    let bound = |i: usize| format!("C,10,0,\n{}{}", text(&format!("$fields.lot_{i:02}.weight")), number("0"));
    let conditions: String = [first, second, third]
        .map(|i| {
            let body = format!("C,8,0,\n{}{}", text("$bar.steel"), text("S355"));
            format!("{}C,20,3,bar\n{}{body}", bound(i), text(&format!("$fields.lot_{i:02}_bars")))
        })
        .concat();
    format!("R,4,-,lots\nC,2,8,\n{conditions}{}C,1,1,\n", bound(last))
}

/// The rule at that place of a book for the schema of 611 entries, each on other blocks than the one before.
pub fn book_rule(at: usize) -> Vec<u8> {
    of_blocks([at, at + 7, at + 23, at + 41].map(|i| i % 61)).into_bytes()
}

/// The schema of 611 entries with a rule on four of its blocks that is changed, and the number that is answered then.
pub fn of_lots(number: u32, change: impl Fn(&str) -> String) -> Sample {
    let rule = change(&of_blocks([0, 20, 40, 60])).into_bytes();
    Sample { rule, number, ..typical(611) }
}

/// Two letters, rising.
fn pair_name(i: usize) -> String {
    let letters: Vec<char> = ('0'..='9').chain('A'..='Z').chain('a'..='z').collect();
    [letters[i / letters.len()], letters[i % letters.len()]].iter().collect()
}

pub fn wide_schema(fields: usize) -> String {
    format!("H,0,{fields},-,0\n{}", each(fields, |i| plain(2, &pair_name(i))))
}

/// Siblings, and a reference to every second of them.
fn wide(fields: usize) -> Sample {
    let count = fields / 2;
    Sample::new(wide_schema(fields), format!("T\nV,6,{count},\n{}", each(count, |i| text(&format!("$fields.{}", pair_name(2 * i))))))
}

/// Closed objects without a field, and a reference to a field of each.
pub fn closed_objects(count: usize) -> Sample {
    let fields = each(count, |i| object(&pair_name(i), 0));
    let references = each(count, |i| text(&format!("$fields.{}.dye", pair_name(i))));
    Sample::new(format!("H,0,{count},-,0\n{fields}"), format!("T\nV,6,{count},\n{references}")).with_defect(18)
}

fn members(keys: impl Iterator<Item = usize>) -> String {
    keys.map(|i| format!("K,2,{}\nV,1,0,\n", pair_name(i))).collect()
}

/// Each of the numbers once, in no order: 1,021 is a prime.
fn strewn(count: usize) -> impl Iterator<Item = usize> {
    (0..1_021).map(|i| i * 617 % 1_021).filter(move |i| *i < count)
}

/// An object whose keys lie in no order, none twice.
fn strewn_keys(count: usize) -> Sample {
    Sample::new("H,0,0,-,0\n".to_owned(), format!("T\nV,7,{count},\n{}", members(strewn(count))))
}

pub fn deep_schema(levels: usize) -> String {
    format!("H,0,1,-,0\n{}", each(levels, |i| object("n", usize::from(i + 1 < levels))))
}

/// Fields, conditions and values that nest: conditions half as deep, since 32 is the most that is accepted.
fn deep(levels: usize) -> Sample {
    let reference = text(&format!("$fields{}", ".n".repeat(levels)));
    let value = format!("{}{reference}", "V,6,1,\n".repeat(levels - 1));
    let condition = format!("{}C,8,0,\n{reference}{value}", "C,4,0,\n".repeat(levels / 2 - 1));
    Sample::new(deep_schema(levels), format!("R,-,-,\n{condition}"))
}

fn long_name(i: usize) -> String {
    format!("{i:02}{}", "n".repeat(498))
}

pub fn long_schema(texts: usize) -> String {
    format!("H,0,{texts},-,0\n{}", each(texts, |i| plain(1, &long_name(i))))
}

fn long_texts(texts: usize) -> Sample {
    Sample::new(long_schema(texts), format!("T\nV,6,{texts},\n{}", each(texts, |i| text(&format!("$fields.{}", long_name(i))))))
}

/// A condition whose reference leads to no field.
fn lost_reference() -> String {
    format!("C,5,0,\n{}", text("$fields.lost"))
}

fn many_references(count: usize) -> Sample {
    works_of_bars(count, "$bar.origin.works")
}

/// References through the inner one of two binders, in turn with ones to the record; the first of them is given.
fn works_of_bars(count: usize, first: &str) -> Sample {
    let element = format!("F,7,0,0,2,0,-,\n{}F,7,0,0,1,6,-,origin\n{}", plain(1, "grade"), plain(1, "works"));
    let fields = format!("{}{element}{}", array("bars"), plain(1, "works"));
    let reference = |i| if i == 0 { first } else { ["$bar.origin.works", "$fields.works"][i % 2] };
    let exists = each(count, |i| format!("C,5,0,\n{}", text(reference(i))));
    let binders = format!("C,20,4,lots\n{}C,20,3,bar\n{}", text("$fields.bars"), text("$fields.bars"));
    Sample::new(format!("H,0,2,-,0\n{fields}"), format!("R,-,-,\n{binders}C,2,{count},\n{exists}"))
}

fn large_rules(entries: usize) -> Sample {
    all_forms(entries, "")
}

/// Conditions of every form, six of them in sixteen entries, after a given one.
fn all_forms(entries: usize, first: &str) -> Sample {
    let forms = [
        format!("C,6,0,\n{}{}", text("$fields.made"), text("2024-02-29")),
        format!("C,11,0,\n{}{}", text("$fields.mass"), number("12.5e1")),
        format!("C,18,3,\n{}{}", text("$fields.mass"), number("99")),
        format!("C,16,0,\n{}{}", text("$fields.name"), text("HEB")),
        "C,1,1,\n".to_owned(),
        format!("C,4,0,\nC,19,0,\n{}", text("$fields.name")),
    ];
    let left = entries - 2 - first.lines().count();
    let blocks = left / 16;
    let rest = left % 16;
    let conditions = first.to_owned() + &each(blocks, |_| forms.concat()) + &each(rest, |_| forms[4].clone());
    let count = usize::from(!first.is_empty()) + 6 * blocks + rest;
    let fields = [plain(1, "made"), plain(3, "mass"), plain(1, "name")].concat();
    Sample::new(format!("H,0,3,-,0\n{fields}"), format!("R,-,-,\nC,2,{count},\n{conditions}"))
}

/// Both sheets as long as they may be, at the largest size: objects of seven fields with long names, and bounds and comparisons on fields of all objects.
fn full_sheets(entries: usize) -> Sample {
    let objects = (entries - 1) / 8;
    let rest = (entries - 1) % 8;
    let inner = each(7, |i| plain(2, &format!("reading_bar_{i}")));
    let fields = each(objects, |i| format!("{}{inner}", object(&format!("position_{i:03}"), 7)));
    let last = each(rest, |i| plain(1, &format!("remark_{i}")));
    let conditions = (2 * entries - 2) / 3;
    let spare = (2 * entries - 2) % 3;
    let tests = each(conditions, |i| {
        let value = if i % 2 == 0 { text(&format!("$fields.position_{:03}.reading_bar_{}", i % objects, i % 7)) } else { number("7") };
        format!("C,{},0,\n{value}{}", 10 + i % 4, number("12"))
    });
    let schema = format!("H,0,{},-,0\n{fields}{last}", objects + rest);
    Sample::new(schema, format!("R,-,-,\nC,2,{},\n{tests}{}", conditions + spare, "C,1,1,\n".repeat(spare)))
}

/// An operation's template: an object whose members are references, numbers, texts and arrays of two references, in turn.
fn templates(count: usize) -> Sample {
    let reference = text("$fields.lot.weight");
    let values = [reference.clone(), number("12.5"), text("S355"), format!("V,6,2,\n{reference}{reference}")];
    let members = each(count, |i| format!("K,2,{}\n{}", pair_name(i), values[i % values.len()]));
    let fields = format!("{}{}", object("lot", 1), plain(2, "weight"));
    Sample::new(format!("H,0,1,-,0\n{fields}"), format!("T\nV,7,{count},\n{members}"))
}

/// Comparisons of two numbers of 500 digits. They differ from the bound of finite numbers in the 309th digit, and are at its place or lower, as the
/// exponent says.
fn numbers(count: usize, exponent: usize) -> Sample {
    let agreeing = String::from_utf8_lossy(&bound()[1..308]);
    let value = number(&format!("1.{agreeing}1{}e{exponent}", "9".repeat(191)));
    let comparisons = each(count / 2, |_| format!("C,8,0,\n{value}{value}"));
    Sample::new("H,0,0,-,0\n".to_owned(), format!("R,-,-,\nC,2,{},\n{comparisons}", count / 2))
}

/// A sheet whose acceptance alone is measured.
pub struct Sheet {
    pub name: &'static str,
    pub bytes: Vec<u8>,
}

/// Sheets of several shapes, up to the limit of 30,000 bytes.
pub fn sheets() -> Vec<Sheet> {
    let values = |one: String, count: usize| format!("T\nV,6,{count},\n{}", one.repeat(count));
    let pair = format!("C,8,0,\n{}{}", text("$fields.bars"), number("12.5"));
    let sheet = |name, text: String| Sheet { name, bytes: text.into_bytes() };
    vec![
        sheet("schema, 1,000 siblings", wide_schema(1_000)),
        Sheet { name: "schema, 611 entries", bytes: typical(611).schema },
        sheet("schema, names of 500 bytes", long_schema(57)),
        sheet("schema, 64 levels", deep_schema(64)),
        sheet("template, 2,046 constants", values("V,1,0,\n".to_owned(), 2_046)),
        sheet("template, 1,900 numbers", values(number("12.5e10"), 1_900)),
        sheet("template, strings of 512 bytes", values(text(&"s".repeat(512)), 57)),
        sheet("template, 1,000 keys that rise", format!("T\nV,7,1000,\n{}", members(0..1_000))),
        sheet("template, 1,000 keys in no order", format!("T\nV,7,1000,\n{}", members(strewn(1_000)))),
        sheet("template, 1,022 keys that fall", format!("T\nV,7,1022,\n{}", members((0..1_022).rev()))),
        sheet("rule, 600 pairs", format!("R,-,-,\nC,2,600,\n{}", pair.repeat(600))),
        sheet("rule, 256 levels", format!("R,-,-,\n{}C,1,1,\n", "C,4,0,\n".repeat(255))),
    ]
}

/// Sheets with and without a defect, for the messages: accepted ones, small and early defects, one in the innermost of 31 bodies, and a value that is printed.
pub fn told() -> Vec<(&'static str, Sample)> {
    let listed = |name: &str| GROUPS.iter().find(|group| group.name == name).map(|group| (group.name, (group.make)(group.listed)));
    let early = ["early defect in a large rule", "early defect among many references"].into_iter().filter_map(listed);
    let lost = |sample: Sample| {
        let rule = String::from_utf8_lossy(&sample.rule).replacen("$fields.weight_00", "$fields.weight_99", 1);
        Sample { rule: rule.into_bytes(), ..sample }.with_defect(18)
    };
    let innermost = |_| {
        let chain = (0..31).fold(plain(2, "a"), |inner, _| format!("{}F,7,0,0,1,0,-,\n{inner}", array("a")));
        let over = |i| if i == 0 { "$fields.a".to_owned() } else { format!("$b{}.a", i - 1) };
        let quantifiers = each(31, |i| format!("C,20,{},b{i}\n{}", format!("b{i}").len(), text(&over(i))));
        let body = format!("C,5,0,\n{}", text("$b30.lost"));
        Sample::new(format!("H,0,1,-,0\n{chain}"), format!("R,-,-,\n{quantifiers}{body}")).with_defect(18)
    };
    let printed = |texts: usize| {
        let list = format!("V,6,{texts},\n{}", text("a \"quoted\" text\n").repeat(texts));
        Sample::new("H,0,0,-,0\n".to_owned(), format!("R,-,-,\nC,16,0,\n{list}{}", text("a"))).with_defect(19)
    };
    let small = [
        ("small, accepted", small(4)),
        ("small, a name that is not there", lost(small(4))),
        ("611 schema entries, accepted", typical(611)),
    ];
    let large = [("in the innermost of 31 bodies", innermost(())), ("a list of 1,000 texts that is printed", printed(1_000))];
    small.into_iter().chain(early).chain(large).collect()
}

/// The sheets that go deepest into the stack.
pub fn deepest() -> Vec<(&'static str, Sample)> {
    let empty = || "H,1,0,-,0\n".to_owned();
    let quantifiers = each(31, |_| format!("C,20,1,b\n{}", text("$fields.a")));
    let reference = text(&format!("$b{}", ".n".repeat(62)));
    let arrays = format!("{}{reference}", "V,6,1,\n".repeat(63));
    let below = each(63, |i| format!("F,7,0,0,{},{},-,{}\n", usize::from(i < 62), usize::from(i > 0), if i > 0 { "n" } else { "" }));
    vec![
        ("64 levels of fields", Sample::new(deep_schema(64), "R,-,-,\nC,1,1,\n".to_owned())),
        ("256 levels of conditions", Sample::new(empty(), format!("R,-,-,\n{}C,1,1,\n", "C,4,0,\n".repeat(255)))),
        ("64 levels of values", Sample::new(empty(), format!("T\n{}V,1,0,\n", "V,6,1,\n".repeat(63)))),
        (
            "31 quantifiers, one in another",
            Sample::new(format!("H,0,1,-,0\n{}{below}", array("a")), format!("R,-,-,\n{quantifiers}C,18,1,\n{reference}{reference}")),
        ),
        (
            "256 levels of conditions and 64 of values",
            Sample::new(empty(), format!("R,-,-,\n{}C,8,0,\n{arrays}{arrays}", "C,4,0,\n".repeat(255))),
        ),
    ]
}
