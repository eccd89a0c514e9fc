// Settings in blocks that are told by indentation, with lists in brackets, in which columns don't
// count: they may be wrapped as one likes.
start Settings;

// Each entry is a block of its own: `offside` keeps what belongs to it to the right of its name.
// `align` asks that the entries of one list begin in one column.
syntax Settings = align (offside Entry)*;
syntax Entry = Name "=" Value | Name align (offside Entry)+;

// `ignore List`: the blocks around ask nothing of the tokens of the list, the brackets among them.
syntax Value = Number | String | ignore List;
syntax List = "[" {Value ","}* ","? "]";

lexical Name = [a-z] [a-z0-9\-]* !>> [a-z0-9\-];
lexical Number = [0-9]+ !>> [0-9];
lexical String = "\"" [^"\n]* "\"";

// Blanks, ends of lines, and comments from `#` to the end of the line.
layout Space = ([ \n] | Comment)* !>> [ \n#];
lexical Comment = "#" [^\n]* !>> [^\n];
