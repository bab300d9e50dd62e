/* Checks a good and a bad rule of a mill from C, explains the bad one, and checks a third under the mill's own name table, where one has a constant condition; checks a rule that is written in JSON; tallies a book of two rules; then asks whether a schema has grown. In this folder, after `rt lib` in the repository's crates/entity_rules:
 *
 *   cc check.c -I../include -L../../crates/entity_rules/out -lentity_rules -o /tmp/check && /tmp/check
 *
 * It prints
 *
 *   good: accepted, 9 checks passed
 *   bad: defect 18 of family 8, detail 3, at entry 5, bad.assert.for_all.that.eq[0], after 8 checks
 *   bad: '$bar.threded' cannot resolve: '$bar' declares no property 'threded'
 *   own: accepted, 10 checks passed
 *   own: entry 6 is always true
 *   json: accepted, 5 checks passed
 *   json: {"assert":{"exists":"$fields.bars"}}
 *   book: 2 read, 1 accepted, 1 with defect 18, 17 checks passed
 *   wider: a widening
 *   narrower: none, reason 1, at entry 4 of the old sheet and 0 of the new
 */
#include <entity_rules.h>
#include <stdio.h>
#include <string.h>

static uint8_t path[ENTITY_RULES_PATH_BYTES];

/* The conditions that are constant. */
static uint8_t marks[ENTITY_RULES_MARKS_BYTES];

/* The mill's own name table, loaded. */
static uint8_t table[ENTITY_RULES_TABLE_BYTES];

static const uint8_t *bytes(const char *text) { return (const uint8_t *)text; }

/* Prints what the library answered for one rule. */
static void show(const char *label, uint32_t number, const uint8_t *result, size_t size) {
  uint32_t passed = rulecheck_field(result, size, ENTITY_RULES_PASSED);
  if (number == ENTITY_RULES_ACCEPTED) {
    printf("%s: accepted, %u checks passed\n", label, (unsigned)passed);
  } else if (number < ENTITY_RULES_DEFECT_NAME || number > ENTITY_RULES_DEFECT_OVER) {
    printf("%s: refused, %u\n", label, (unsigned)number);
  } else {
    printf("%s: defect %u of family %u, detail %u, at entry %u, %.*s, after %u checks\n", label, (unsigned)number,
           (unsigned)rulecheck_field(result, size, ENTITY_RULES_FAMILY),
           (unsigned)rulecheck_field(result, size, ENTITY_RULES_DETAIL),
           (unsigned)rulecheck_field(result, size, ENTITY_RULES_PLACE),
           (int)rulecheck_field(result, size, ENTITY_RULES_PATH_LENGTH), (const char *)path, (unsigned)passed);
  }
}

/* Checks a rule by the stock table. */
static void check(const char *label, const char *schema, const char *rule) {
  uint8_t result[ENTITY_RULES_RESULT_BYTES];
  uint32_t number = rulecheck_rule(ENTITY_RULES_PRECONDITION, ENTITY_RULES_SERVICE_1,
                                   bytes(label), strlen(label), bytes(schema), strlen(schema),
                                   bytes(rule), strlen(rule),
                                   path, sizeof path, result, sizeof result);
  show(label, number, result, sizeof result);
}

/* Prints the message of a rule's defect, as entity-runtime has it. */
static void explain(const char *label, const char *schema, const char *rule) {
  uint8_t message[1024];
  uint8_t result[ENTITY_RULES_EXPLAIN_RESULT_BYTES];
  rulecheck_explain(ENTITY_RULES_PRECONDITION, ENTITY_RULES_SERVICE_1,
                    bytes(label), strlen(label), bytes(""), 0,
                    bytes(schema), strlen(schema), bytes(rule), strlen(rule),
                    path, sizeof path, marks, sizeof marks, message, sizeof message, result, sizeof result);
  uint32_t length = rulecheck_field(result, sizeof result, ENTITY_RULES_MESSAGE_LENGTH);
  if (rulecheck_field(result, sizeof result, ENTITY_RULES_MESSAGE_REFUSAL) != 0) {
    printf("%s: a message of %u bytes\n", label, (unsigned)length);
  } else {
    printf("%s: %.*s\n", label, (int)length, (const char *)message);
  }
}

/* Checks a rule by the table that is loaded, and prints which of its conditions are constant. */
static void check_own(const char *label, const char *schema, const char *rule) {
  uint8_t result[ENTITY_RULES_CHECK_RESULT_BYTES];
  uint32_t number = rulecheck_check(ENTITY_RULES_OUTCOME_SELECTOR, ENTITY_RULES_SERVICE_1,
                                    bytes(label), strlen(label), table, sizeof table,
                                    bytes(schema), strlen(schema), bytes(rule), strlen(rule),
                                    path, sizeof path, marks, sizeof marks, result, sizeof result);
  show(label, number, result, sizeof result);
  uint32_t count = rulecheck_field(result, sizeof result, ENTITY_RULES_MARK_COUNT);
  for (uint32_t index = 0; index < count; index++) {
    uint32_t mark = rulecheck_field(marks, sizeof marks, index);
    printf("%s: entry %u is always %s\n", label, (unsigned)(mark / 2), mark % 2 == 1 ? "true" : "false");
  }
}

/* Checks a rule that is written in JSON, and prints its sheet as JSON again. */
static void check_json(const char *label, const char *schema, const char *text) {
  static char sheet[ENTITY_RULES_SHEET_BYTES + 1];
  uint8_t json[256];
  uint8_t result[ENTITY_RULES_JSON_RESULT_BYTES];
  const size_t size = sizeof result;
  uint32_t number = rulecheck_from_json(bytes(text), strlen(text), (uint8_t *)sheet, sizeof sheet - 1, result, size);
  if (number != 0) {
    printf("%s: refused, %u\n", label, (unsigned)number);
    return;
  }
  sheet[rulecheck_field(result, size, ENTITY_RULES_JSON_LENGTH)] = 0;
  check(label, schema, sheet);
  rulecheck_to_json(bytes(sheet), strlen(sheet), json, sizeof json, result, size);
  printf("%s: %.*s\n", label, (int)rulecheck_field(result, size, ENTITY_RULES_JSON_LENGTH), (const char *)json);
}

/* Tallies a book, and prints how often one defect came. */
static void tally(const char *label, const char *schema, const char *book, unsigned defect) {
  uint8_t result[ENTITY_RULES_TALLY_BYTES];
  const size_t size = sizeof result;
  uint32_t number = rulecheck_tally(ENTITY_RULES_PRECONDITION, ENTITY_RULES_SERVICE_1,
                                    bytes(label), strlen(label), bytes(""), 0,
                                    bytes(schema), strlen(schema), bytes(book), strlen(book),
                                    path, sizeof path, result, size);
  if (number != 0) {
    printf("%s: refused, %u\n", label, (unsigned)number);
  } else {
    uint32_t index = ENTITY_RULES_TALLY_DEFECTS + defect - ENTITY_RULES_DEFECT_NAME;
    printf("%s: %llu read, %llu accepted, %llu with defect %u, %llu checks passed\n", label,
           (unsigned long long)rulecheck_count(result, size, ENTITY_RULES_TALLY_READ),
           (unsigned long long)rulecheck_count(result, size, ENTITY_RULES_TALLY_ACCEPTED),
           (unsigned long long)rulecheck_count(result, size, index), defect,
           (unsigned long long)rulecheck_count(result, size, ENTITY_RULES_TALLY_PASSED));
  }
}

/* Says whether a schema is a widening of another. */
static void compare(const char *label, const char *old_schema, const char *new_schema) {
  uint8_t result[ENTITY_RULES_RESULT_BYTES];
  const size_t size = sizeof result;
  uint32_t number = rulecheck_widens(bytes(old_schema), strlen(old_schema),
                                     bytes(new_schema), strlen(new_schema), result, size);
  if (number != 0) {
    printf("%s: refused, %u\n", label, (unsigned)number);
  } else if (rulecheck_field(result, size, ENTITY_RULES_WIDENS_ANSWER) != ENTITY_RULES_WIDENS_NO) {
    printf("%s: a widening\n", label);
  } else {
    printf("%s: none, reason %u, at entry %u of the old sheet and %u of the new\n", label,
           (unsigned)rulecheck_field(result, size, ENTITY_RULES_WIDENS_REASON),
           (unsigned)rulecheck_field(result, size, ENTITY_RULES_WIDENS_FIRST_ENTRY),
           (unsigned)rulecheck_field(result, size, ENTITY_RULES_WIDENS_SECOND_ENTRY));
  }
}

int main(void) {
  /* A pattern names bars, each of them threaded or not. */
  const char *schema = "H,0,1,-,0\n"
                       "F,6,0,1,0,4,-,bars\n"
                       "F,7,0,0,1,0,-,\n"
                       "F,4,0,0,0,8,-,threaded\n";
  const char *good = "R,-,-,\n"
                     "C,20,3,bar\n"
                     "V,5,12,$fields.bars\n"
                     "C,8,0,\n"
                     "V,5,13,$bar.threaded\n"
                     "V,3,0,\n";
  check("good", schema, good);
  const char *bad = "R,-,-,\n"
                    "C,20,3,bar\n"
                    "V,5,12,$fields.bars\n"
                    "C,8,0,\n"
                    "V,5,12,$bar.threded\n"
                    "V,3,0,\n";
  check("bad", schema, bad);
  explain("bad", schema, bad);
  /* In this mill outcome selectors read the state, the fifth mark of entry 5. */
  const char *own = "N,1,1,1,1,1,1,0,0,0,0\n"
                    "N,2,1,1,1,1,0,1,1,1,1\n"
                    "N,3,1,1,1,1,1,1,0,0,0\n"
                    "N,4,1,1,1,1,1,1,1,1,1\n"
                    "N,5,1,1,1,1,1,0,1,1,0\n"
                    "N,6,1,1,1,0,0,0,0,1,0\n"
                    "N,7,1,1,1,0,1,1,0,1,0\n"
                    "N,8,1,1,1,1,1,1,0,1,0\n";
  if (rulecheck_load_table(bytes(own), strlen(own), table, sizeof table) != 0) {
    return 1;
  }
  check_own("own", schema,
            "R,-,-,\n"
            "C,2,2,\n"
            "C,8,0,\n"
            "V,5,6,$state\n"
            "V,5,5,drawn\n"
            "C,6,0,\n"
            "V,5,10,2024-02-29\n"
            "V,5,10,2024-03-01\n");
  check_json("json", schema, "{\"name\": null, \"assert\": {\"exists\": \"$fields.bars\"}}");
  /* A book of both, each with its length in bytes and a comma before it. */
  char book[256];
  snprintf(book, sizeof book, "%u,%s%u,%s", (unsigned)strlen(good), good, (unsigned)strlen(bad), bad);
  tally("book", schema, book, ENTITY_RULES_DEFECT_REFERENCE);
  /* Bars get a number, so whatever was accepted before is accepted still. */
  const char *wider = "H,0,1,-,0\n"
                      "F,6,0,1,0,4,-,bars\n"
                      "F,7,0,0,2,0,-,\n"
                      "F,2,0,0,0,6,-,number\n"
                      "F,4,0,0,0,8,-,threaded\n";
  compare("wider", schema, wider);
  compare("narrower", wider, schema);
  return 0;
}
