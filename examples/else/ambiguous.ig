// Statements in the manner of C. An `else` may belong to any `if` before it that has none.
start Program;
syntax Program = Statement*;
syntax Statement
    = "if" "(" Expression ")" Statement
    | "if" "(" Expression ")" Statement "else" !>> [a-z] Statement
    | "while" "(" Expression ")" Statement
    | "{" Statement* "}"
    | Name "=" Expression ";"
    | Expression ";"
    | ";";
syntax Expression = Name | Number | Call
    > left Expression "+" Expression | Expression "-" Expression
    > nonassoc Expression "<" Expression | Expression "==" Expression;
syntax Call = Name "(" {Expression ","}* ")";

lexical Name = Word \ "if" \ "else" \ "while";
lexical Word = [a-z]+ !>> [a-z];
lexical Number = [0-9]+ !>> [0-9];

layout Space = ([ \n] | Comment)* !>> [ \n] !>> "/*";
lexical Comment = "/*" ([^*] | "*" !>> "/")* "*/";
