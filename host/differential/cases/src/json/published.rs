//! The examples of RFC 8259, each as the text of a value.

/// Sections 3, 7, 8.3 and 13.
pub const SAMPLES: [&str; 12] = [
    "false",
    "null",
    "true",
    "\"\\u005C\"",
    "\"\\uD834\\uDD1E\"",
    "\"a\\\\b\"",
    "\"a\\u005Cb\"",
    "{
        \"Image\": {
            \"Width\":  800,
            \"Height\": 600,
            \"Title\":  \"View from 15th Floor\",
            \"Thumbnail\": {
                \"Url\":    \"http://www.example.com/image/481989943\",
                \"Height\": 125,
                \"Width\":  100
            },
            \"Animated\" : false,
            \"IDs\": [116, 943, 234, 38793]
          }
      }",
    "[
        {
           \"precision\": \"zip\",
           \"Latitude\":  37.7668,
           \"Longitude\": -122.3959,
           \"Address\":   \"\",
           \"City\":      \"SAN FRANCISCO\",
           \"State\":     \"CA\",
           \"Zip\":       \"94107\",
           \"Country\":   \"US\"
        },
        {
           \"precision\": \"zip\",
           \"Latitude\":  37.371991,
           \"Longitude\": -122.026020,
           \"Address\":   \"\",
           \"City\":      \"SUNNYVALE\",
           \"State\":     \"CA\",
           \"Zip\":       \"94085\",
           \"Country\":   \"US\"
        }
      ]",
    "\"Hello world!\"",
    "42",
    "true",
];

/// What the RFC's words say is no JSON, or may only be read as two things: section 2's white space, 3's literals, 6's numbers, 7's strings, 8.1's mark.
pub const NONE: [&str; 24] = [
    "True",
    "NULL",
    "nul",
    "undefined",
    "Infinity",
    "NaN",
    "-Infinity",
    "012",
    "-01",
    "1.",
    ".1",
    "1e",
    "1E+",
    "+1",
    "0x10",
    "1_000",
    "[1,]",
    "{\"a\":1,}",
    "{a:1}",
    "'a'",
    "\"\t\"",
    "\"\\x41\"",
    "\u{FEFF}1",
    "\u{A0}1",
];
