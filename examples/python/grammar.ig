// A large part of Python 3: statements by indentation, expressions by levels. There is one layout, and it has line
// feeds. So brackets suspend indentation by `ignore`; and what goes on in the next line without a bracket is
// accepted where it stands to the right of the statement, which Python refuses.
start File;

syntax File = Lines?;
// The statements of a block begin in one column, and what belongs to one stands to the right of its begin; but for
// decorators and for `else` and its like, which stand in the column of what they belong to.
syntax Lines = align (offside Statement)+;
syntax Statement = Simples | Compound(column(here));
syntax Simples = {Simple ";"}+ ";"?;
syntax Suite
    = c: ":" when (line(here) == line(begin(c))) Simples
    | c: ":" when (line(here) > line(begin(c))) Lines;

syntax Compound(c: int)
    = Definition
    | Decorator Decorated(c)
    | "if" !>> [a-zA-Z0-9_] Named Suite ElseIf(c)* Else(c)?
    | "while" !>> [a-zA-Z0-9_] Named Suite Else(c)?
    | ("async" !>> [a-zA-Z0-9_])? "for" !>> [a-zA-Z0-9_] Targets "in" !>> [a-zA-Z0-9_] Tests Suite Else(c)?
    | "try" !>> [a-zA-Z0-9_] Suite Except(c)+ Else(c)? Finally(c)?
    | "try" !>> [a-zA-Z0-9_] Suite Finally(c)
    | ("async" !>> [a-zA-Z0-9_])? "with" !>> [a-zA-Z0-9_] {WithItem ","}+ Suite;
syntax Definition
    = ("async" !>> [a-zA-Z0-9_])? "def" !>> [a-zA-Z0-9_] Name Parameters ("->" Test)? Suite
    | "class" !>> [a-zA-Z0-9_] Name Arguments? Suite;
syntax Decorator = "@" !>> "=" Named;
syntax Decorated(c: int) = when (column(here) == c) ignore Marked(c);
syntax Marked(c: int) = Decorator Decorated(c) | offside Definition;
syntax ElseIf(c: int) = when (column(here) == c) ignore "elif" !>> [a-zA-Z0-9_] Named Suite;
syntax Else(c: int) = when (column(here) == c) ignore "else" !>> [a-zA-Z0-9_] Suite;
syntax Finally(c: int) = when (column(here) == c) ignore "finally" !>> [a-zA-Z0-9_] Suite;
syntax Except(c: int)
    = when (column(here) == c) ignore "except" !>> [a-zA-Z0-9_] "*"? (Test ("as" !>> [a-zA-Z0-9_] Name)?)? Suite;
syntax WithItem = Test ("as" !>> [a-zA-Z0-9_] Target)?;

// Statements of one line.
syntax Simple
    = Tests
    | (Targets "=" !>> "=")+ Value
    | Target ":" !>> "=" Test ("=" !>> "=" Value)?
    | Target AssignmentSign Value
    | "pass" !>> [a-zA-Z0-9_] | "break" !>> [a-zA-Z0-9_] | "continue" !>> [a-zA-Z0-9_]
    | "return" !>> [a-zA-Z0-9_] Tests? | "del" !>> [a-zA-Z0-9_] Targets
    | "raise" !>> [a-zA-Z0-9_] (Test ("from" !>> [a-zA-Z0-9_] Test)?)?
    | "assert" !>> [a-zA-Z0-9_] Test ("," Test)?
    | "global" !>> [a-zA-Z0-9_] {Name ","}+ | "nonlocal" !>> [a-zA-Z0-9_] {Name ","}+
    | "import" !>> [a-zA-Z0-9_] {(Path ("as" !>> [a-zA-Z0-9_] Name)?) ","}+
    | "from" !>> [a-zA-Z0-9_] (Path | Dots Path?) "import" !>> [a-zA-Z0-9_] Imports
    | Yield;
syntax Value = Tests | Yield;
syntax Yield = "yield" !>> [a-zA-Z0-9_] Tests? | "yield" !>> [a-zA-Z0-9_] "from" !>> [a-zA-Z0-9_] Test;
syntax Imports = "*" | {Import ","}+ | "(" ignore ({Import ","}+ ","?) ignore ")";
syntax Import = Name ("as" !>> [a-zA-Z0-9_] Name)?;
syntax Path = {Name "."}+;
lexical Dots = "."+ !>> ".";
lexical AssignmentSign = ("+" | "-" | "*" | "@" | "/" | "%" | "&" | "|" | "^" | "<<" | ">>" | "**" | "//") "=";

// What may be assigned to is a part of the expressions.
syntax Targets = {StarTarget ","}+ ","?;
syntax StarTarget = Target | "*" !>> "*" Target;
syntax Target = Primary;

// Expressions, level by level.
syntax Tests = {StarTest ","}+ ","?;
syntax StarTest = Named | "*" !>> "*" BitOr;
syntax Named = Test | Name ":=" Test;
syntax Test = Or | Or "if" !>> [a-zA-Z0-9_] Or "else" !>> [a-zA-Z0-9_] Test | "lambda" !>> [a-zA-Z0-9_] LambdaParameters ":" Test;
syntax Or = And | Or "or" !>> [a-zA-Z0-9_] And;
syntax And = Not | And "and" !>> [a-zA-Z0-9_] Not;
syntax Not = Comparison | "not" !>> [a-zA-Z0-9_] Not;
syntax Comparison = BitOr | Comparison ComparisonSign BitOr | Comparison WordSign BitOr;
syntax WordSign
    = "in" !>> [a-zA-Z0-9_] | "not" !>> [a-zA-Z0-9_] "in" !>> [a-zA-Z0-9_] | "is" !>> [a-zA-Z0-9_]
    | "is" !>> [a-zA-Z0-9_] "not" !>> [a-zA-Z0-9_];
lexical ComparisonSign = "==" | "!=" | "<=" | ">=" | "<" !>> [<=] | ">" !>> [>=];
syntax BitOr = BitXor | BitOr "|" !>> "=" BitXor;
syntax BitXor = BitAnd | BitXor "^" !>> "=" BitAnd;
syntax BitAnd = Shift | BitAnd "&" !>> "=" Shift;
syntax Shift = Sum | Shift "<<" !>> "=" Sum | Shift ">>" !>> "=" Sum;
syntax Sum = Product | Sum "+" !>> "=" Product | Sum "-" !>> [=>] Product;
syntax Product = Sign | Product ProductSign Sign;
lexical ProductSign = "*" !>> [*=] | "/" !>> [/=] | "//" !>> "=" | "%" !>> "=" | "@" !>> "=";
syntax Sign = Power | "-" Sign | "+" Sign | "~" Sign;
syntax Power = Awaited | Awaited "**" !>> "=" Sign;
syntax Awaited = Primary | "await" !>> [a-zA-Z0-9_] Primary;
syntax Primary = Atom | Primary "." Name | Primary Arguments | Primary "[" ignore ({Index ","}+ ","?) ignore "]";
syntax Index = StarTest | Test? ":" !>> "=" Test? (":" !>> "=" Test?)?;
syntax Arguments = "(" ignore ({Argument ","}* ","?) ignore ")";
syntax Argument
    = Named Comprehension? | Name "=" !>> "=" Test | "*" !>> "*" Test | "**" Test;
syntax Atom
    = Name | Number | String+
    | ("None" !>> [a-zA-Z0-9_] | "True" !>> [a-zA-Z0-9_] | "False" !>> [a-zA-Z0-9_] | "...")
    | "(" ignore ((Tests | Yield | Named Comprehension)?) ignore ")"
    | "[" ignore ((Tests | Named Comprehension)?) ignore "]"
    | "{" ignore (({DictItem ","}+ ","? | Test ":" !>> "=" Test Comprehension)?) ignore "}"
    | "{" ignore (Tests | Named Comprehension) ignore "}";
syntax DictItem = Test ":" !>> "=" Test | "**" BitOr;
syntax Comprehension = ComprehensionFor+;
syntax ComprehensionFor
    = ("async" !>> [a-zA-Z0-9_])? "for" !>> [a-zA-Z0-9_] Targets "in" !>> [a-zA-Z0-9_] Or ("if" !>> [a-zA-Z0-9_] Condition)*;
syntax Condition = Or | Name ":=" Or;

// Parameters.
syntax Parameters = "(" ignore ({Parameter ","}* ","?) ignore ")";
syntax Parameter
    = Name (":" !>> "=" Test)? ("=" !>> "=" Test)? | "*" !>> "*" (Name (":" !>> "=" StarTest)?)? | "**" Name (":" !>> "=" Test)? | "/";
syntax LambdaParameters = {LambdaParameter ","}* ","?;
syntax LambdaParameter = Name ("=" !>> "=" Test)? | "*" !>> "*" Name? | "**" Name | "/";

// Names, with the keywords taken away.
lexical Name = Word
    \ "False" \ "None" \ "True" \ "and" \ "as" \ "assert" \ "async" \ "await" \ "break" \ "class" \ "continue" \ "def" \ "del"
    \ "elif" \ "else" \ "except" \ "finally" \ "for" \ "from" \ "global" \ "if" \ "import" \ "in" \ "is" \ "lambda"
    \ "nonlocal" \ "not" \ "or" \ "pass" \ "raise" \ "return" \ "try" \ "while" \ "with" \ "yield";
lexical Word = [a-zA-Z_] [a-zA-Z0-9_]* !>> [a-zA-Z0-9_] !>> "'" !>> "\"";

// Literals.
lexical Number
    = (Digits Fraction? Exponent? | "." Digits Exponent? | "0" [xX] [0-9a-fA-F_]+ | "0" [oO] [0-7_]+ | "0" [bB] [01_]+) [jJ]?
        !>> [a-zA-Z0-9_];
lexical Digits = [0-9] [0-9_]* !>> [0-9_];
lexical Fraction = "." [0-9_]* !>> [0-9_];
lexical Exponent = [eE] [+\-]? [0-9_]+ !>> [0-9_];
lexical String
    = Prefix ("\"" !>> "\"\"" ([^"\\\n] | Escape)* "\"" | "'" !>> "''" ([^'\\\n] | Escape)* "'"
        | "\"\"\"" ([^"\\] | Escape | "\"" !>> "\"\"")* "\"\"\"" | "'''" ([^'\\] | Escape | "'" !>> "''")* "'''");
lexical Prefix = | [rRbBfFuU] | [rRbBfF] [rRbBfF];
lexical Escape = "\\" $any;

// Blanks, line feeds, lines that go on, and comments.
layout Layout = Blanks (Other Blanks)* !>> "#" !>> "\\\n";
lexical Blanks = [ \t\n\r]* !>> [ \t\n\r];
lexical Other = "#" [^\n]* !>> [^\n] | "\\\n";
