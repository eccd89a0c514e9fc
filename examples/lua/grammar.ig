// Lua 5.4, by the grammar of its reference manual.
start Chunk;
syntax Chunk = Block;
syntax Block = Statement* Return?;
syntax Return = "return" !>> [a-zA-Z0-9_] {Expression ","}* ";"?;

syntax Statement
    = ";"
    | {Variable ","}+ "=" {Expression ","}+
    | Call !>> "("
    | "::" Name "::"
    | "break" !>> [a-zA-Z0-9_]
    | "goto" !>> [a-zA-Z0-9_] Name
    | "do" !>> [a-zA-Z0-9_] Block "end" !>> [a-zA-Z0-9_]
    | "while" !>> [a-zA-Z0-9_] Expression "do" !>> [a-zA-Z0-9_] Block "end" !>> [a-zA-Z0-9_]
    | "repeat" !>> [a-zA-Z0-9_] Block "until" !>> [a-zA-Z0-9_] Expression
    | "if" !>> [a-zA-Z0-9_] Expression "then" !>> [a-zA-Z0-9_] Block
        ("elseif" !>> [a-zA-Z0-9_] Expression "then" !>> [a-zA-Z0-9_] Block)*
        ("else" !>> [a-zA-Z0-9_] Block)? "end" !>> [a-zA-Z0-9_]
    | "for" !>> [a-zA-Z0-9_] Name "=" Expression "," Expression ("," Expression)?
        "do" !>> [a-zA-Z0-9_] Block "end" !>> [a-zA-Z0-9_]
    | "for" !>> [a-zA-Z0-9_] {Name ","}+ "in" !>> [a-zA-Z0-9_] {Expression ","}+
        "do" !>> [a-zA-Z0-9_] Block "end" !>> [a-zA-Z0-9_]
    | "function" !>> [a-zA-Z0-9_] {Name "."}+ (":" Name)? Body
    | "local" !>> [a-zA-Z0-9_] "function" !>> [a-zA-Z0-9_] Name Body
    | "local" !>> [a-zA-Z0-9_] {Attributed ","}+ ("=" {Expression ","}+)?;
syntax Attributed = Name ("<" Name ">")?;

// What may be called or indexed. A call goes on as far as it can: `f` and a `(` on the next line is a
// call, says the manual, so neither an expression nor a statement ends before a `(` that could go on.
syntax Prefix = Variable | Call | "(" Expression ")";
syntax Variable = Name | Prefix "[" Expression "]" | Prefix "." Name;
syntax Call = Prefix Arguments | Prefix ":" Name Arguments;
syntax Arguments = "(" {Expression ","}* ")" | Table | String;
syntax Body = "(" Parameters ")" Block "end" !>> [a-zA-Z0-9_];
syntax Parameters = {Name ","}* | {Name ","}+ "," "..." | "...";

// From the tightest level to the loosest.
syntax Expression
    = "nil" !>> [a-zA-Z0-9_] | "false" !>> [a-zA-Z0-9_] | "true" !>> [a-zA-Z0-9_] | Number | String | "..." | Prefix !>> "(" | Table
    | "function" !>> [a-zA-Z0-9_] Body
    > right Expression "^" Expression
    > "not" !>> [a-zA-Z0-9_] Expression | "#" Expression | "-" Expression | "~" Expression
    > left Expression "*" Expression | Expression "/" Expression
        | Expression "//" Expression | Expression "%" Expression
    > left Expression "+" Expression | Expression "-" Expression
    > right Expression ".." Expression
    > left Expression "<<" Expression | Expression ">>" Expression
    > left Expression "&" Expression
    > left Expression "~" Expression
    > left Expression "|" Expression
    > left Expression "<" Expression | Expression ">" Expression
        | Expression "<=" Expression | Expression ">=" Expression
        | Expression "~=" Expression | Expression "==" Expression
    > left Expression "and" !>> [a-zA-Z0-9_] Expression
    > left Expression "or" !>> [a-zA-Z0-9_] Expression;

syntax Table = "{" (Field ([,;] Field)* [,;]?)? "}";
syntax Field = "[" Expression "]" "=" Expression | Name "=" Expression | Expression;

// No word of the language is a name.
lexical Name = Word \ "and" \ "break" \ "do" \ "else" \ "elseif" \ "end" \ "false" \ "for" \ "function" \ "goto" \ "if" \ "in"
    \ "local" \ "nil" \ "not" \ "or" \ "repeat" \ "return" \ "then" \ "true" \ "until" \ "while";
lexical Word = [a-zA-Z_] [a-zA-Z0-9_]* !>> [a-zA-Z0-9_];
lexical Number = Decimal | Hexadecimal;
lexical Decimal = ([0-9]+ ("." [0-9]*)? | "." [0-9]+) ([eE] [+\-]? [0-9]+)? !>> [a-zA-Z0-9_.];
lexical Hexadecimal = "0" [xX] [0-9a-fA-F]+ ("." [0-9a-fA-F]*)? ([pP] [+\-]? [0-9]+)? !>> [a-zA-Z0-9_.];
lexical String = "\"" ([^"\\\n] | Escape)* "\"" | "'" ([^'\\\n] | Escape)* "'" | Long;
lexical Escape = "\\" $any;

// `[==[ .. ]==]`: the end has as many signs as the begin, and inside stands what isn't that end.
lexical Long = "[" open: Equals "[" Inside(size(open)) "]" close: Equals "]" when (size(close) == size(open));
lexical Equals = "="* !>> "=";
lexical Inside(n: int)
    = ([^\]]
    | "]" signs: Equals when (size(signs) != n)
    | "]" signs: Equals !>> "]" when (size(signs) == n))*;

// `--` and a long bracket is a comment of several lines, else a comment ends with its line.
layout Space = ([ \t\r\n] | Comment)* !>> [ \t\r\n] !>> "--";
lexical Comment = "--" !>> "[[" !>> "[=" [^\n]* !>> [^\n] | "--" Long;
