/* One rule, template or key path checked against the schema of its record, or a whole rule book; schemas compared, the marks
 * to open in one found, rules made from JSON and turned back into it, and instants read: the C functions of libentity_rules.a.
 *
 * docs/FORMAT.md says what the sheets hold and what each number means. Lengths are in bytes. A pointer must lead to as many bytes
 * as the length after it says, and must not be null, even where that is 0. path, marks, message, list, result, pages, buffer, fields, json and the sheet that
 * rulecheck_from_json makes must not overlap each other or anything else. No function keeps a pointer, allocates or waits, so any number of threads may call them at once. A call
 * takes up to about 330 KB of stack: 16 KB for its scratch, the rest by how deep the sheets nest, most for a rule with 64 levels of values in
 * 256 of conditions. rulecheck_from_json takes up to about 510 KB, most for a text that nests 1,024 deep. A path under 32,768 bytes or a result under 28 is refusal 3, and is not written; rulecheck_check needs a result of 32,
 * rulecheck_explain of 40, rulecheck_tally of 144, rulecheck_wall of 16, rulecheck_openings of 12.
 */
#ifndef ENTITY_RULES_H
#define ENTITY_RULES_H

/* The version of this header and of the crate. */
#define ENTITY_RULES_VERSION "0.3.0"

/* The same as the library's rulecheck_version() answers it. */
#define ENTITY_RULES_VERSION_NUMBER 0x000300u

#include <stddef.h>
#include <stdint.h>

#ifdef __cplusplus
extern "C" {
#endif

/* Where the rule or template is used. */
enum entity_rules_kind {
  ENTITY_RULES_INVARIANT = 1,
  ENTITY_RULES_PRECONDITION = 2,
  ENTITY_RULES_CREATE_TEMPLATE = 3,
  ENTITY_RULES_OPERATION_TEMPLATE = 4,
  ENTITY_RULES_OUTCOME_SELECTOR = 5,
  ENTITY_RULES_CREATE_SELECTOR = 6,
  ENTITY_RULES_CREATE_SET = 7,
  ENTITY_RULES_CREATE_OUTCOME_TEMPLATE = 8
};

/* The version of the language that it is written for. */
enum entity_rules_semantics {
  ENTITY_RULES_KERNEL_1 = 1,
  ENTITY_RULES_SERVICE_1 = 2,
  ENTITY_RULES_SERVICE_2 = 3,
  ENTITY_RULES_SERVICE_3 = 4
};

/* Who will read a key path. */
enum entity_rules_reader {
  ENTITY_RULES_KERNEL = 1,
  ENTITY_RULES_PROJECTION = 2
};

/* The number of an answer: 0, a refusal (1 to 5, 31 to 38) or a defect (11 to 22). The refusal 39 stands beside a defect, at ENTITY_RULES_MESSAGE_REFUSAL. */
enum entity_rules_number {
  ENTITY_RULES_ACCEPTED = 0,
  ENTITY_RULES_REFUSED_SETTING = 1,
  ENTITY_RULES_REFUSED_LABEL = 2,
  ENTITY_RULES_REFUSED_WIDTH = 3,
  ENTITY_RULES_REFUSED_SCHEMA_SHEET = 4,
  ENTITY_RULES_REFUSED_RULE_SHEET = 5,
  ENTITY_RULES_DEFECT_NAME = 11,
  ENTITY_RULES_DEFECT_MESSAGE = 12,
  ENTITY_RULES_DEFECT_DEEP = 13,
  ENTITY_RULES_DEFECT_LITERAL = 14,
  ENTITY_RULES_DEFECT_OPERATOR = 15,
  ENTITY_RULES_DEFECT_EMPTY = 16,
  ENTITY_RULES_DEFECT_OPERAND = 17,
  ENTITY_RULES_DEFECT_REFERENCE = 18,
  ENTITY_RULES_DEFECT_AFFIX = 19,
  ENTITY_RULES_DEFECT_INSTANT = 20,
  ENTITY_RULES_DEFECT_BIND = 21,
  ENTITY_RULES_DEFECT_OVER = 22,
  ENTITY_RULES_REFUSED_JSON_FORM = 31,
  ENTITY_RULES_REFUSED_SHEET_LIMIT = 32,
  ENTITY_RULES_REFUSED_OUTPUT = 33,
  ENTITY_RULES_REFUSED_BOOK_FORM = 34,
  ENTITY_RULES_REFUSED_MARK_LIST = 35,
  ENTITY_RULES_REFUSED_OPENING_LIST = 36,
  ENTITY_RULES_REFUSED_TABLE_FORM = 37,
  ENTITY_RULES_REFUSED_TABLE_MARK = 38,
  ENTITY_RULES_REFUSED_MESSAGE_BUFFER = 39
};

/* The family of a defect. */
enum entity_rules_family {
  ENTITY_RULES_INVALID_RULE = 1,
  ENTITY_RULES_INVALID_TEMPLATE = 2,
  ENTITY_RULES_SEMANTICS_KEY_NOT_AVAILABLE = 3,
  ENTITY_RULES_CONDITION_TOO_DEEP = 4,
  ENTITY_RULES_COMPARE_OPERAND_NOT_ADDRESSABLE = 5,
  ENTITY_RULES_QUANTIFIER_BIND_INVALID = 6,
  ENTITY_RULES_QUANTIFIER_OVER_NOT_COLLECTION = 7,
  ENTITY_RULES_QUANTIFIER_BODY_SCOPE = 8
};

/* The detail of a defect 17. */
enum entity_rules_side {
  ENTITY_RULES_SIDE_LEFT = 1,
  ENTITY_RULES_SIDE_RIGHT = 2
};

/* The detail of a defect 18: why a reference cannot be read. Only a key path can have the last one: a projection cannot read the length of a text. */
enum entity_rules_reference_fault {
  ENTITY_RULES_REFERENCE_EMPTY_PATH = 1,
  ENTITY_RULES_REFERENCE_UNKNOWN_ROOT = 2,
  ENTITY_RULES_REFERENCE_UNKNOWN_PROPERTY = 3,
  ENTITY_RULES_REFERENCE_ARRAY_MEMBER = 4,
  ENTITY_RULES_REFERENCE_MAP_MEMBER = 5,
  ENTITY_RULES_REFERENCE_AFTER_COUNT = 6,
  ENTITY_RULES_REFERENCE_AFTER_TAG = 7,
  ENTITY_RULES_REFERENCE_UNION_MEMBER = 8,
  ENTITY_RULES_REFERENCE_NO_COUNT = 9,
  ENTITY_RULES_REFERENCE_NO_MEMBER = 10,
  ENTITY_RULES_REFERENCE_ROOT_NOT_AVAILABLE = 11,
  ENTITY_RULES_REFERENCE_NO_SUCH_REFERENCE = 12,
  ENTITY_RULES_REFERENCE_TEXT_COUNT = 13
};

/* The detail of a defect 20: why an operand is not an instant. */
enum entity_rules_instant_fault {
  ENTITY_RULES_INSTANT_ESCAPED = 1,
  ENTITY_RULES_INSTANT_UNREADABLE = 2
};

/* The detail of a defect 22: why what a quantifier goes over is not a collection. */
enum entity_rules_collection_fault {
  ENTITY_RULES_OVER_NOT_A_STRING = 1,
  ENTITY_RULES_OVER_UNKNOWN_PROPERTY = 2,
  ENTITY_RULES_OVER_NO_MEMBER = 3,
  ENTITY_RULES_OVER_NOT_A_COLLECTION = 4,
  ENTITY_RULES_OVER_NO_NAME = 5
};

/* The numbers of a result, by their index; only rulecheck_check and rulecheck_explain have the count of marks, and only the latter has the last two. */
enum entity_rules_field {
  ENTITY_RULES_NUMBER = 0,
  ENTITY_RULES_FAMILY = 1,
  ENTITY_RULES_DETAIL = 2,
  ENTITY_RULES_PLACE = 3,
  ENTITY_RULES_OVER_PLACE = 4,
  ENTITY_RULES_PASSED = 5,
  ENTITY_RULES_PATH_LENGTH = 6,
  ENTITY_RULES_MARK_COUNT = 7,
  ENTITY_RULES_MESSAGE_REFUSAL = 8,
  ENTITY_RULES_MESSAGE_LENGTH = 9
};

/* The numbers of a result of rulecheck_widens, by their index; the first is ENTITY_RULES_NUMBER. */
enum entity_rules_widens_field {
  ENTITY_RULES_WIDENS_ANSWER = 1,
  ENTITY_RULES_WIDENS_REASON = 2,
  ENTITY_RULES_WIDENS_FIRST_ENTRY = 3,
  ENTITY_RULES_WIDENS_SECOND_ENTRY = 4
};

/* The answer of rulecheck_widens where its number is 0. */
enum entity_rules_widens_answer {
  ENTITY_RULES_WIDENS_MARKS = 1,
  ENTITY_RULES_WIDENS_ANYTHING = 2,
  ENTITY_RULES_WIDENS_NO = 3
};

/* Why a schema is not a widening of another. */
enum entity_rules_widens_reason {
  ENTITY_RULES_FIELD_MISSING = 1,
  ENTITY_RULES_KIND_DIFFERS = 2,
  ENTITY_RULES_ITEMS_DIFFER = 3,
  ENTITY_RULES_TAG_DIFFERS = 4,
  ENTITY_RULES_MARK_CLOSES = 5,
  ENTITY_RULES_FIELD_ADDED = 6,
  ENTITY_RULES_ARGUMENTS_GO = 7
};

/* The numbers of a tally, by their index. */
enum entity_rules_tally_field {
  ENTITY_RULES_TALLY_NUMBER = 0,
  ENTITY_RULES_TALLY_READ = 1,
  ENTITY_RULES_TALLY_ACCEPTED = 2,
  ENTITY_RULES_TALLY_REFUSED_SCHEMA_SHEET = 3,
  ENTITY_RULES_TALLY_REFUSED_RULE_SHEET = 4,
  /* The defects from ENTITY_RULES_DEFECT_NAME to ENTITY_RULES_DEFECT_OVER, one after the other. */
  ENTITY_RULES_TALLY_DEFECTS = 5,
  ENTITY_RULES_TALLY_PASSED = 17
};

/* The numbers of a wall sheet's result, by their index. */
enum entity_rules_wall_field {
  ENTITY_RULES_WALL_NUMBER = 0,
  ENTITY_RULES_WALL_PAGES = 1
};

/* The numbers of a result of rulecheck_openings, by their index; the first is ENTITY_RULES_NUMBER. */
enum entity_rules_openings_field {
  ENTITY_RULES_OPENINGS_SET = 1,
  ENTITY_RULES_OPENINGS_COUNT = 2
};

/* The marks of a set of openings that are not a field's entry. */
enum entity_rules_opening {
  ENTITY_RULES_OPENING_ARGUMENTS = 0,
  ENTITY_RULES_OPENING_RECORD = 1
};

/* The numbers of a result of rulecheck_from_json or rulecheck_to_json, by their index; the first is ENTITY_RULES_NUMBER. */
enum entity_rules_json_field {
  ENTITY_RULES_JSON_LENGTH = 1
};

/* The numbers of an instant's fields, by their index. */
enum entity_rules_instant_field {
  ENTITY_RULES_YEAR = 0,
  ENTITY_RULES_MONTH = 1,
  ENTITY_RULES_DAY = 2,
  ENTITY_RULES_HOUR = 3,
  ENTITY_RULES_MINUTE = 4,
  ENTITY_RULES_SECOND = 5,
  ENTITY_RULES_NANOSECONDS = 6
};

/* The most that a key path may hold. */
#define ENTITY_RULES_KEY_BYTES 512

/* The bytes of a name table, and the least that a buffer must hold that one is loaded into. */
#define ENTITY_RULES_TABLE_BYTES 176

/* The least that the buffers of a call must hold. */
#define ENTITY_RULES_PATH_BYTES 32768
#define ENTITY_RULES_RESULT_BYTES 28
#define ENTITY_RULES_TALLY_BYTES 144
#define ENTITY_RULES_WALL_BYTES 16
#define ENTITY_RULES_OPENINGS_BYTES 12
#define ENTITY_RULES_JSON_RESULT_BYTES 8

/* The most that a sheet may hold, so that a buffer of this length takes what is made from any JSON; what is made of a sheet has at most six times its bytes. */
#define ENTITY_RULES_SHEET_BYTES 30000

/* A page of a wall sheet: the sheets that it has a line for, and its bytes. */
#define ENTITY_RULES_PAGE_SHEETS 58
#define ENTITY_RULES_PAGE_BYTES 4860

/* The same of rulecheck_check, besides the path. */
#define ENTITY_RULES_MARKS_BYTES 8192
#define ENTITY_RULES_CHECK_RESULT_BYTES 32

/* The result of rulecheck_explain, which is lent path and marks as rulecheck_check is. */
#define ENTITY_RULES_EXPLAIN_RESULT_BYTES 40

/* The list of rulecheck_openings. */
#define ENTITY_RULES_OPENING_LIST_BYTES 4100

/* Checks a rule. Returns the number; result takes all seven numbers, and after a defect path begins with its path, which has no
 * 0 at its end. Other bytes of both keep their values. A template's sheet is refused with 5. */
uint32_t rulecheck_rule(uint64_t kind, uint64_t semantics,
                        const uint8_t *label, size_t label_length,
                        const uint8_t *schema, size_t schema_length,
                        const uint8_t *rule, size_t rule_length,
                        uint8_t *path, size_t path_length,
                        uint8_t *result, size_t result_length);

/* Checks a template; otherwise as rulecheck_rule. A rule's sheet is refused with 5. */
uint32_t rulecheck_template(uint64_t kind, uint64_t semantics,
                            const uint8_t *label, size_t label_length,
                            const uint8_t *schema, size_t schema_length,
                            const uint8_t *rule, size_t rule_length,
                            uint8_t *path, size_t path_length,
                            uint8_t *result, size_t result_length);

/* Checks a rule or a template, as the first letter of its sheet says, under a name table; otherwise as rulecheck_rule. A table of 0 bytes
 * is the stock table, which the other functions use. Of any other the first 176 bytes count: 37 where they are not a table, 38 where
 * a mark hides $id, $entity or $version, or shows $old_fields where $fields is hidden. Of an accepted rule, marks takes the conditions that are
 * before or after with two literal instants, and so have the same truth whatever a record holds: for each four bytes, least significant first, of the number
 * of its entry, doubled, and 1 more if it is true. They rise; result has at index 7 how many there are, and marks keeps its other bytes. A list under
 * 8,192 bytes is 35. After 3 and before 4, the order is 35, 37, 38. A result under 32 bytes is refusal 3. */
uint32_t rulecheck_check(uint64_t kind, uint64_t semantics,
                         const uint8_t *label, size_t label_length,
                         const uint8_t *table, size_t table_length,
                         const uint8_t *schema, size_t schema_length,
                         const uint8_t *rule, size_t rule_length,
                         uint8_t *path, size_t path_length,
                         uint8_t *marks, size_t marks_length,
                         uint8_t *result, size_t result_length);

/* Checks as rulecheck_check does, and writes the message of a defect to the start of message: the sentence that entity-runtime has for it, byte for byte, or
 * where it has none the operator, the depth, the side or the bind. It is UTF-8 and has no 0 at its end. A result under 40 bytes is refusal 3. After the eight numbers
 * of rulecheck_check come two: at index 8, 39 if message is shorter than the message, and else 0; at index 9 the message's length, with 39 too. message is then
 * unchanged, and verdict, path and marks are given all the same, so that a host can call again with a buffer of that length. message keeps its
 * other bytes in every case, and all of them where there is no defect; both numbers are 0 then. */
uint32_t rulecheck_explain(uint64_t kind, uint64_t semantics,
                           const uint8_t *label, size_t label_length,
                           const uint8_t *table, size_t table_length,
                           const uint8_t *schema, size_t schema_length,
                           const uint8_t *rule, size_t rule_length,
                           uint8_t *path, size_t path_length,
                           uint8_t *marks, size_t marks_length,
                           uint8_t *message, size_t message_length,
                           uint8_t *result, size_t result_length);

/* Loads a name table: copies it to the start of buffer, from which later checks can be lent it, and returns 0. Returns 37 for what is not a
 * table of exactly 176 bytes and for a buffer under 176, then 38 as rulecheck_check does; buffer is then unchanged. It keeps its other
 * bytes in every case. */
uint32_t rulecheck_load_table(const uint8_t *table, size_t table_length,
                              uint8_t *buffer, size_t buffer_length);

/* Checks one path of the record's fields, without `$fields.` before it, for a reader (enum entity_rules_reader). Returns 0 with one
 * check passed, 18 with its detail, or a refusal: 1 for an unknown semantics or reader, 2 for a path over 512 bytes or not UTF-8, 3 for a
 * result under 28 bytes, 4 for the schema. All other numbers of result are 0, and it keeps its other bytes. */
uint32_t rulecheck_path(uint64_t semantics, uint64_t reader,
                        const uint8_t *path, size_t path_length,
                        const uint8_t *schema, size_t schema_length,
                        uint8_t *result, size_t result_length);

/* Whether the second schema is a widening of the first: then a rule that was accepted under the first is accepted under the second. Returns 0
 * whatever the answer, which is the number at index 1 (enum entity_rules_widens_answer), followed by its reason and the entries that it is about, 0 where
 * there is none; or a refusal: 3 for a result under 28 bytes, 4 for a sheet that is not well formed, the number at index 1
 * being 1 for the first sheet and 2 for the second. All other numbers of result are 0, and it keeps its other bytes. */
uint32_t rulecheck_widens(const uint8_t *first, size_t first_length,
                          const uint8_t *second, size_t second_length,
                          uint8_t *result, size_t result_length);

/* Checks every sheet of a rule book, rules and templates, against one schema and tallies the answers that rulecheck_check would give. A book is a file of sheets, each with its
 * length in bytes and a comma before it. Returns 0, and result takes eighteen numbers of eight bytes (enum entity_rules_tally_field), which rulecheck_count reads;
 * or a refusal, the other numbers being 0: 1, 2, 3 (for a path under 32,768 bytes or a result under 144), 34 for a file that is not a book, 37, 38, tried in this
 * order. A schema sheet that is not well formed is not one of them: every sheet then counts as refused by it. After a tally the first 32,768 bytes of path hold
 * anything; all other bytes of both buffers are kept. */
uint32_t rulecheck_tally(uint64_t kind, uint64_t semantics,
                         const uint8_t *label, size_t label_length,
                         const uint8_t *table, size_t table_length,
                         const uint8_t *schema, size_t schema_length,
                         const uint8_t *book, size_t book_length,
                         uint8_t *path, size_t path_length,
                         uint8_t *result, size_t result_length);

/* Checks a rule book as rulecheck_tally does, and prints the answers on pages of 80 columns and 60 lines: a heading, a line for each of 58 sheets, and a
 * foot with the page's own count of accepted ones. Returns 0, and the pages are at the start of pages; result takes two numbers of eight bytes (enum
 * entity_rules_wall_field). Or returns a refusal, the count of pages being 0 and pages unchanged: those of rulecheck_tally, 3 for a result under 16
 * bytes, and, tried after 34, 33 for pages under 4,860 bytes for each page. Other bytes of pages and result are kept, and path is as after rulecheck_tally. */
uint32_t rulecheck_wall(uint64_t kind, uint64_t semantics,
                        const uint8_t *label, size_t label_length,
                        const uint8_t *table, size_t table_length,
                        const uint8_t *schema, size_t schema_length,
                        const uint8_t *book, size_t book_length,
                        uint8_t *path, size_t path_length,
                        uint8_t *pages, size_t pages_length,
                        uint8_t *result, size_t result_length);

/* Which open marks of the schema must go from 0 to 1 for the rule or template to be accepted. Where some set of openings gives acceptance, there is one that every
 * other such set contains: list takes its marks, rising, each as four bytes, least significant first: 0 for the mark of the arguments, 1 for that of
 * the record, else the entry of the field (enum entity_rules_opening). What is accepted as it is has the set without marks. Returns 0, and result takes
 * three numbers of four bytes (enum entity_rules_openings_field): 0, 1 if there is a set and else 0, and how many marks it has; or returns a refusal, the other
 * two being 0: 1, 3 (for a path under 32,768 bytes or a result under 12), 36 for a list under 4,100 bytes, 37, 38, 4, 5, tried in this order. There is no
 * label. After an answer the first 32,768 bytes of path hold anything; all other bytes of the three buffers are kept. */
uint32_t rulecheck_openings(uint64_t kind, uint64_t semantics,
                            const uint8_t *table, size_t table_length,
                            const uint8_t *schema, size_t schema_length,
                            const uint8_t *rule, size_t rule_length,
                            uint8_t *path, size_t path_length,
                            uint8_t *list, size_t list_length,
                            uint8_t *result, size_t result_length);

/* Makes the sheet of a rule that is written in JSON, shaped as entity-runtime reads it, at the start of sheet. Returns 0, and result takes two numbers of four bytes (enum
 * entity_rules_json_field): 0 and the sheet's length; or returns a refusal, the length being 0 and sheet unchanged: 31 for a text that is not the JSON of a rule or nests over 1,024
 * deep, 32 for a sheet that would pass a limit, 33 for one that is longer than its buffer, tried in this order. The text may have any length. Other bytes of sheet and result are kept. A
 * result under 8 bytes is no refusal: it is not written, and the number is returned all the same. */
uint32_t rulecheck_from_json(const uint8_t *text, size_t text_length,
                             uint8_t *sheet, size_t sheet_length,
                             uint8_t *result, size_t result_length);

/* Writes the JSON of a rule's sheet, compact and in UTF-8, at the start of json; it has no 0 at its end, and rulecheck_from_json makes the same sheet of it again. Returns 0, and
 * result takes 0 and its length; or returns a refusal, the length being 0 and json unchanged: 5 for a sheet that is not well formed or a template's, 33 for JSON that is longer
 * than its buffer. Other bytes of json and result are kept. A result under 8 bytes is no refusal, as above. */
uint32_t rulecheck_to_json(const uint8_t *sheet, size_t sheet_length,
                           uint8_t *json, size_t json_length,
                           uint8_t *result, size_t result_length);

/* One of the numbers of a tally or of a wall sheet's result, by its index; 0 past the end. */
uint64_t rulecheck_count(const uint8_t *result, size_t result_length, uint32_t index);

/* One of the numbers of a result, by an index of enum entity_rules_field, of a list of marks or of openings, of a conversion from JSON or to it, or of an instant's fields; 0 past the end. */
uint32_t rulecheck_field(const uint8_t *result, size_t result_length, uint32_t index);

/* The version of the library that is linked: major, minor and patch, eight bits for each of the last two. A host compares it with
 * ENTITY_RULES_VERSION_NUMBER before its first check. */
uint32_t rulecheck_version(void);

/* Whether a text is a finite number, and how many of its digits were compared with those of 2^1024 - 2^970 for that: the count (at most 309)
 * times 2, and 1 more if it is finite. */
uint32_t rulecheck_finite(const uint8_t *text, size_t text_length);

/* Reads an instant: its seven numbers (enum entity_rules_instant_field) go to the start of fields, what the text leaves out being 0. Returns 0;
 * or 3 for fields under 28 bytes (ENTITY_RULES_RESULT_BYTES), then 20 for a text that is not an instant, and fields is unchanged. It keeps its other
 * bytes in every case. */
uint32_t rulecheck_instant(const uint8_t *text, size_t text_length,
                           uint8_t *fields, size_t fields_length);

#ifdef __cplusplus
}
#endif

#endif
