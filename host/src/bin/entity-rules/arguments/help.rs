//! What `--help` prints.

pub const HELP: &str = "\
Checks whole definitions of entity-runtime, and rules, templates and key paths against the schema
of their record, and schemas against those that come after them; tallies rule books; finds what to
open for a rule; reads instants.

usage: entity-rules definition DEFINITION [--json] [--sarif] [--quiet]
       entity-rules tally DEFINITION [--json] [--quiet]
       entity-rules open DEFINITION [--json] [--quiet]
       entity-rules check SCHEMA RULE.. --kind KIND --semantics SEMANTICS [OPTION..]
       entity-rules tally SCHEMA BOOK --kind KIND --semantics SEMANTICS [OPTION..]
       entity-rules wall SCHEMA BOOK --kind KIND --semantics SEMANTICS [OPTION..]
       entity-rules book RULE.. > BOOK
       entity-rules path SCHEMA PATH.. --semantics SEMANTICS [OPTION..]
       entity-rules open SCHEMA RULE.. --kind KIND --semantics SEMANTICS [OPTION..]
       entity-rules widens OLD NEW [--json] [--quiet]
       entity-rules upgrade OLD NEW RULE.. --kind KIND --semantics SEMANTICS [OPTION..]
       entity-rules upgrade DEFINITION DEFINITION [--fail-on worse] [--json] [--quiet]
       entity-rules instant TEXT.. [--json] [--quiet]
       entity-rules show FILE..
       entity-rules to-sheet FILE > RULE
       entity-rules to-json RULE..
       entity-rules explain NUMBER
       entity-rules table

  definition
           whether every rule, condition, template and key of a definition is accepted, each with
           the label that entity-runtime gives it; ends with what was not checked
  check    whether rules and templates are accepted, or their first defect
  tally    how many sheets of a rule book are accepted, refused, and have a defect of each number
  wall     prints a rule book for the wall, on pages of 80 columns and 60 lines: for each sheet its
           serial number, the number, family and place of its answer, the checks passed, the path
  book     writes the rule book of the sheets in these files to standard output
  path     whether paths of the record's fields can be read
  open     which objects of the schema must be opened for rules to be accepted, no more than needed;
           with --write the schema with all of them open
  widens   whether the schema NEW is a widening of OLD, so that what was accepted stays accepted;
           what grew, or the first breach
  upgrade  what happens to rules when NEW replaces OLD: where it is a widening, those that are
           accepted stay so by the theorem and are not checked again; all others are checked
           under both; of two versions of a definition: which places stay accepted by the theorem,
           and how all others fare
  instant  whether texts are instants, and their fields
  show     prints schema sheets, rules, templates, rule books and name tables as trees, each entry
           with its number
  to-sheet writes the sheet of a rule in JSON to standard output
  to-json  writes each rule as a line of JSON, which to-sheet makes the same sheet of again
  explain  what a number of an answer means, such as 18 or, with its detail, 18.3; with an example
  table    prints the stock name table

  DEFINITION          a file that holds a definition of entity-runtime in JSON; it may be -, which
                      is standard input
  SCHEMA, OLD, NEW    files that hold a schema sheet; one of the files named may be -, which is
                      standard input
  RULE                files that hold a rule sheet, a template, a rule in JSON or a rule book, or
                      folders of such files; a file that begins with a digit is a book, and each of
                      its sheets counts as a rule of its own; one that begins with `{`, or whose
                      name ends in .json, holds JSON
  FILE                files that hold any of these sheets, or folders of such files; for to-sheet
                      one file that holds a rule in JSON
  BOOK                a file of sheets, each with its length in bytes and a comma before it; for
                      tally also a folder of files of rules
  PATH                a path of the record's fields, without `$fields.` before it
  TEXT                a text that may be an instant
  --kind KIND         check, tally, wall, open, upgrade: invariant, precondition, create_template,
                      operation_template, outcome_selector, create_selector, create_set or
                      create_outcome_template, or as the format spells them (CreateSet); check,
                      open and upgrade do without it where a list gives each file its kind
  --semantics SEMANTICS
                      kernel/1, service/1, service/2 or service/3
  --reader READER     path: kernel or projection, who will read the path (default: kernel)
  --table FILE        check, tally, wall, open, upgrade: a file that holds a name table, which says
                      what each kind may read (default: the stock table, which the command `table`
                      prints); it may be -
  --label TEXT        check, wall, open, upgrade: what each path begins with (default: the file's
                      name without its extension; for a sheet of a book, except by wall, followed
                      by its serial number in brackets)
  --constants         check: under a rule that is accepted, its conditions that are always true or
                      always false, since they compare two dates that are written in the rule
  --fail-on worse     upgrade of definitions: exit status 1 only if something that was accepted, or
                      is new, has a defect
  --write             open: prints nothing but the schema, with all that the rules need opened
  --json              one line of JSON for each rule, path, text, book or pair of schemas, and no
                      summary; definition: one for each place, then one with what was not checked
  --sarif             definition, check: one SARIF 2.1.0 log, from which editors and code hosts
                      show defects in their places
  --quiet             print nothing for what is accepted, for a widening and for a rule whose
                      answer is as before, and no summary if that is all
  --                  all words after this are files, paths or texts
  -h, --help          prints this
  -V, --version       prints the version, and which library is linked

A folder means its files in the order of their names, without hidden ones and without what is in
folders below it. If it has a file rules.list, each line of that is `FILE KIND` or `FILE KIND LABEL`
or begins with #. What it says of a file takes precedence over --kind and --label.

Examples, in the crate's folder examples/mill:
  entity-rules definition pattern.json
  entity-rules check pattern.schema release.rule --kind precondition --semantics service/1
  entity-rules check pattern.schema branch.rule --kind outcome_selector --semantics service/1 \\
      --table own.table
  entity-rules tally pattern.schema mill.book --kind precondition --semantics service/1
  entity-rules wall pattern.schema mill.book --kind precondition --semantics service/1
  entity-rules book release.rule misspelt.rule > two.book
  entity-rules path pattern.schema bars.count --semantics service/1 --reader projection
  entity-rules open pattern.schema fits.rule --kind precondition --semantics service/1
  entity-rules widens pattern.schema wider.schema
  entity-rules upgrade pattern.schema wider.schema release.rule misspelt.rule \\
      --kind precondition --semantics service/1
  entity-rules upgrade pattern.json pattern-wide.json --fail-on worse
  entity-rules to-sheet release.json > release.rule
  entity-rules instant 2024-02-29 '2024-02-29 12:00:00.5Z'
  entity-rules check pattern.schema rules --kind precondition --semantics service/1

Exit status: 0 if all are accepted, or can be by opening, NEW is a widening, or every rule's answer
is as before; 1 if one has a defect or is not an instant, no opening helps one, NEW is not a
widening, or a rule's answer has changed; 2 if one is refused or cannot be read, or the command line
is wrong.

Colours and a progress bar appear on a terminal only. NO_COLOR, set to anything that is not empty,
switches the colours off; TERM=dumb switches off both.
";

#[cfg(test)]
mod tests {
    use super::*;
    use entity_rules::{Kind, Reader, Semantics};

    #[test]
    fn the_help_has_every_name() {
        let kinds = Kind::ALL.iter().map(|kind| kind.text());
        let readers = Reader::ALL.iter().map(|reader| reader.text());
        let names = kinds.chain(readers);
        for name in names.chain(Semantics::ALL.iter().map(|semantics| semantics.text())) {
            assert!(HELP.contains(name), "{name}");
        }
    }

    #[test]
    fn the_help_fits_a_terminal() {
        for line in HELP.lines() {
            assert!(line.len() <= 100, "{line}");
        }
    }
}
