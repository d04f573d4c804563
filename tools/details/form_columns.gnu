form_columns.game:22:11: error: `犬` isn't a key word, and is declared neither in OBJECTS nor in LEGEND. [RU2]
form_columns.game:23:18: error: `Playar` isn't a key word, and is declared neither in OBJECTS nor in LEGEND. Line 8 declares `Player`. [RU2]
form_columns.game:29:3: error: `犬` (U+72AC) in column 3 is declared neither in OBJECTS nor in LEGEND. [LV1]
