// A small functional language whose blocks are told by indentation, with `where` blocks of any
// depth, comments to the end of the line, and comments in brackets, which nest.
start Program;

// `offside X`: each token of X stands at its begin, or in a column to the right of that. So a
// definition goes on as long as its lines are indented further than its name.
// `align` before a list: all items of the list begin in one column.
syntax Program = align (offside Definition)*;
syntax Definition = Name Name* "=" Expression Where?;
syntax Where = "where" !>> [a-zA-Z0-9_'] align (offside Definition)+;

// The levels of operators, the one that binds tightest first. `f x y` is a function and what it is
// given: one name, number or bracket after another.
syntax Expression
    = Operand+
    > left Expression "*" Expression
    > left Expression "+" Expression | Expression "-" Expression;
syntax Operand = Name | Number | "(" Expression ")";

// Without indentation
//     a = b
//     c d = e
// had two trees: `c` could be given to `b`, and `d = e` be a definition.

// A word is as long as it can be. `\` takes the one word away that is no name.
lexical Name = Word \ "where";
lexical Word = [a-z] [a-zA-Z0-9_']* !>> [a-zA-Z0-9_'];
lexical Number = [0-9]+ !>> [0-9];

// Tabs aren't layout: a tab counts as one column, but nobody sees one column.
layout Space = (Blank | Line | Bracket)* !>> [ \n] !>> "--" !>> "{-";
lexical Blank = [ \n];
lexical Line = "--" [^\n]* !>> [^\n];

// In a comment `{` is a character where no `-` follows, and `-` where no `}` follows.
lexical Bracket = "{-" (Bracket | [^{\-] | "{" !>> "-" | "-" !>> "}")* "-}";
