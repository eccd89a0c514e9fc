// The same statements; each `else` belongs to the nearest `if` before it that has none.
start Program;

// `open` says whether the statement may end with an `if` that has no `else`. Between an `if` and its
// `else` it mayn't: that `if` would be nearer. All else is handed on to the statement at the end.
// A filter `Statement !>> "else"` would do so too, but it would also refuse a name `elsewhere` there.
syntax Program = Statement(true)*;
syntax Statement(open: bool)
    = when (open) "if" "(" Expression ")" Statement(true)
    | "if" "(" Expression ")" Statement(false) "else" !>> [a-z] Statement(open)
    | "while" "(" Expression ")" Statement(open)
    | "{" Statement(true)* "}"
    | Name "=" Expression ";"
    | Expression ";"
    | ";";
syntax Expression = Name | Number | Call
    > left Expression "+" Expression | Expression "-" Expression
    > nonassoc Expression "<" Expression | Expression "==" Expression;
syntax Call = Name "(" {Expression ","}* ")";

// A word is as long as it can be, and some words are no names.
lexical Name = Word \ "if" \ "else" \ "while";
lexical Word = [a-z]+ !>> [a-z];
lexical Number = [0-9]+ !>> [0-9];

// In a comment `*` is a character where no `/` follows.
layout Space = ([ \n] | Comment)* !>> [ \n] !>> "/*";
lexical Comment = "/*" ([^*] | "*" !>> "/")* "*/";
