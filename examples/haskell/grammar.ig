// Haskell 2010: modules, declarations, expressions, patterns and types, with its layout rule; and what many programs
// use beside it: `forall`, classes of several types, `\case`, a block as the last argument, `a ~ b`, bang patterns.
start Module;
tabs 8;

// A block is in braces, or its items begin in one column: `align`. What belongs to an item stands to the
// right of where that begins: `offside`. In braces columns don't count: `ignore`.
syntax Module
    = "module" !>> [a-zA-Z0-9_'] ModuleName Exports? "where" !>> [a-zA-Z0-9_'] Body | Body;
syntax Body = ignore ("{" {Top? ";"}+ "}") | align (offside TopLine)*;
syntax TopLine = {Top ";"}+ ";"?;
syntax Exports = "(" {Export ","}* ","? ")";
syntax Export = QualifiedVariable | QualifiedConstructor Members? | "module" !>> [a-zA-Z0-9_'] ModuleName;
syntax Members = "(" ".." ")" | "(" {(Variable | Constructor) ","}* ")";

syntax Top
    = "import" !>> [a-zA-Z0-9_'] ("qualified" !>> [a-zA-Z0-9_'])? ModuleName ("as" !>> [a-zA-Z0-9_'] ModuleName)?
        ("hiding" !>> [a-zA-Z0-9_'])? Imports?
    | "type" !>> [a-zA-Z0-9_'] Type "=" Type
    | "data" !>> [a-zA-Z0-9_'] Context? ApplicationType ("=" {DataConstructor "|"}+)? Deriving?
    | "newtype" !>> [a-zA-Z0-9_'] Context? ApplicationType "=" DataConstructor Deriving?
    | "class" !>> [a-zA-Z0-9_'] Context? ApplicationType Dependencies? Where?
    | "instance" !>> [a-zA-Z0-9_'] Context? ApplicationType Where?
    | "deriving" !>> [a-zA-Z0-9_'] "instance" !>> [a-zA-Z0-9_'] Context? ApplicationType
    | "default" !>> [a-zA-Z0-9_'] "(" {Type ","}* ")"
    | Declaration;
syntax Imports = "(" {Import ","}* ","? ")";
syntax Import = Variable | ConstructorName Members?;
syntax Dependencies = "|" {Dependency ","}+;
syntax Dependency = TypeVariable* "->" TypeVariable*;

// Declarations.
syntax Where = "where" !>> [a-zA-Z0-9_'] Declarations;
syntax Declarations = ignore ("{" {Declaration? ";"}+ "}") | d: LaidDeclarations EndsBeforeSign(column(begin(d)));
syntax LaidDeclarations = align (offside DeclarationLine)*;
syntax DeclarationLine = {Declaration ";"}+ ";"?;
syntax Declaration
    = {Variable ","}+ "::" Signature
    | ("infixl" !>> [a-zA-Z0-9_'] | "infixr" !>> [a-zA-Z0-9_'] | "infix" !>> [a-zA-Z0-9_']) Integer? {AnyOperator ","}+
    | Left Right;
syntax Left = Function | PatternLeft;
syntax Function
    = Variable AtomicPattern*
    | OperandPattern VariableOperator OperandPattern
    | "(" Function ")" AtomicPattern+;
// A pattern that is no variable alone.
syntax PatternLeft
    = NamelessPattern
    | QualifiedConstructor AtomicPattern+
    | Variable "@" !>> [!#$%&*+./<=>?@\\\^|\-~:] AtomicPattern
    | OperandPattern ConstructorOperator Pattern;
syntax Right = "=" !>> [!#$%&*+./<=>?@\\\^|\-~:] Expression Where? | Guarded+ Where?;
syntax Guarded = Bar {Qualifier ","}+ "=" !>> [!#$%&*+./<=>?@\\\^|\-~:] Expression;
syntax Qualifier = Expression | Pattern "<-" !>> [!#$%&*+./<=>?@\\\^|\-~:] Expression | "let" !>> [a-zA-Z0-9_'] Declarations;

// Expressions, level by level; operators have the fixities of the standard libraries, others that of those
// without a declaration.
syntax Expression = E0 | E0 "::" Signature;
syntax E0 = E1 | E1 Right0 E0;
syntax E1 = E2 | Left1 | To1;
syntax Left1 = E2 Binds E2 | Left1 Binds E2;
syntax To1 = E2 BindsBack E2 | E2 BindsBack To1;
syntax E2 = E3 | E3 "||" !>> [!#$%&*+./<=>?@\\\^|\-~:] E2;
syntax E3 = E4 | E4 "&&" !>> [!#$%&*+./<=>?@\\\^|\-~:] E3 | E3Left;
syntax E3Left = E4 "<|>" !>> [!#$%&*+./<=>?@\\\^|\-~:] E4 | E3Left "<|>" !>> [!#$%&*+./<=>?@\\\^|\-~:] E4;
syntax E4 = E5 | E5 Compares E5 | E4Left;
syntax E4Left = E5 Applies E5 | E4Left Applies E5;
syntax E5 = E6 | E6 Conses E5;
syntax E6 = E6Left | E7 "<>" !>> [!#$%&*+./<=>?@\\\^|\-~:] E6Right | E7;
syntax E6Right = E7 | E7 "<>" !>> [!#$%&*+./<=>?@\\\^|\-~:] E6Right;
syntax E6Left = "-" !>> [!#$%&*+./<=>?@\\\^|\-~:] E7 | E7 Adds E7 | E6Left Adds E7;
syntax E7 = E8 | E7 Multiplies E8;
syntax E8 = E9 | E9 Raises E8;
syntax E9 = E10 | E9Left | E9Right;
syntax E9Left = E10 OtherOperator E10 | E9Left OtherOperator E10;
syntax E9Right = E10 Dot E10 | E10 Dot E9Right;
// What these cover goes as far as it can: no operator may stand after it.
syntax E10
    = Application
    | Open !>> [+*/&\^$<>%!?@#`:~] !>> "||" !>> "==" !>> "=<<" !>> "- " !>> ". " !>> ".\n"
    | Block;
// A block that is laid out goes as far as it can: what stands after it to the right of its column is neither an
// operator, `;` or `|` nor, after alternatives, `where`.
syntax Block
    = "do" !>> [a-zA-Z0-9_'] Braced
    | "do" !>> [a-zA-Z0-9_'] s: Statements Ends(column(begin(s)))
    | Scrutinee BracedAlternatives
    | Scrutinee a: Alternatives EndsBeforeWhere(column(begin(a)));
syntax Scrutinee = "case" !>> [a-zA-Z0-9_'] Expression "of" !>> [a-zA-Z0-9_'] | "\\" "case" !>> [a-zA-Z0-9_'];
syntax Ends(c: int)
    = when (column(here) <= c)
    | when (column(here) > c) Nothing !>> [+*/&\^$<>%!?@#`:~.;|] !>> "||" !>> "==" !>> "=<<" !>> "- ";
syntax EndsBeforeWhere(c: int)
    = when (column(here) <= c)
    | when (column(here) > c) Nothing !>> [+*/&\^$<>%!?@#`:~.;|] !>> "||" !>> "==" !>> "=<<" !>> "- " !>> "where";
syntax EndsBeforeSign(c: int) = when (column(here) <= c) | when (column(here) > c) Nothing !>> ";";
syntax Nothing = ;
syntax Open
    = "\\" !>> [!#$%&*+./<=>?@\\\^|\-:] AtomicPattern+ "->" !>> [!#$%&*+./<=>?@\\\^|\-~:] Expression
    | "let" !>> [a-zA-Z0-9_'] Declarations ";"? "in" !>> [a-zA-Z0-9_'] Expression
    | "if" !>> [a-zA-Z0-9_'] Expression ";"? Then Expression ";"? Else Expression;
// Within `do` these may stand in the column of `if`.
syntax Then = ignore "then" !>> [a-zA-Z0-9_'];
syntax Else = ignore "else" !>> [a-zA-Z0-9_'];
syntax Application = Atom+ Last?;
// An argument that is a block, as many programs have it last.
syntax Last = Block | "\\" !>> [!#$%&*+./<=>?@\\\^|\-:] AtomicPattern+ "->" !>> [!#$%&*+./<=>?@\\\^|\-~:] Expression;

syntax Braced = ignore ("{" {Qualifier? ";"}+ "}");
syntax Statements = align (offside StatementLine)+;
syntax StatementLine = {Qualifier ";"}+ ";"?;
syntax BracedAlternatives = ignore ("{" {Alternative? ";"}+ "}");
syntax Alternatives = align (offside AlternativeLine)+;
syntax AlternativeLine = {Alternative ";"}+ ";"?;
syntax Alternative
    = Pattern "->" !>> [!#$%&*+./<=>?@\\\^|\-~:] Expression Where?
    | Pattern GuardedAlternative+ Where?;
syntax GuardedAlternative = Bar {Qualifier ","}+ "->" !>> [!#$%&*+./<=>?@\\\^|\-~:] Expression;

syntax Atom
    = QualifiedVariable | QualifiedConstructor | Literal
    | "(" ")" | "(" ","+ ")" | "[" "]"
    | "(" Expression ")"
    | "(" Expression "," {Expression ","}+ ")"
    | "[" {Expression ","}+ "]"
    | "[" Expression ("," Expression)? ".." Expression? "]"
    | "[" Expression Bar {Qualifier ","}+ "]"
    | "(" E0 AnyOperator ")"
    | "(" SectionOperator E0 ")"
    | Atom "{" {FieldBinding ","}* "}";
syntax FieldBinding = QualifiedVariable ("=" !>> [!#$%&*+./<=>?@\\\^|\-~:] Expression)? | "..";

// Patterns.
syntax Pattern = OperandPattern | OperandPattern ConstructorOperator Pattern;
syntax OperandPattern = AtomicPattern | QualifiedConstructor AtomicPattern+ | "-" Number;
syntax AtomicPattern = Variable | Variable "@" !>> [!#$%&*+./<=>?@\\\^|\-~:] AtomicPattern | NamelessPattern | QualifiedConstructor;
syntax NamelessPattern
    = Literal | "_" !>> [a-zA-Z0-9_']
    | QualifiedConstructor "{" {FieldPattern ","}* "}"
    | "(" ")" | "(" Pattern ("::" Signature)? ")" | "(" Pattern "," {Pattern ","}+ ")"
    | "[" {Pattern ","}* "]"
    | "~" !>> [!#$%&*+./<=>?@\\\^|\-~:] AtomicPattern | "!" !>> [!#$%&*+./<=>?@\\\^|\-~: ] AtomicPattern;
syntax FieldPattern = QualifiedVariable ("=" Pattern)? | "..";

// Types.
syntax Signature = ("forall" !>> [a-zA-Z0-9_'] TypeVariable+ ".")? Context? Type;
syntax Context = ApplicationType "=>" !>> [!#$%&*+./<=>?@\\\^|\-~:];
syntax Type = ApplicationType | ApplicationType "->" !>> [!#$%&*+./<=>?@\\\^|\-~:] Type;
syntax ApplicationType = AtomicType+;
syntax AtomicType
    = QualifiedTypeConstructor | TypeVariable
    | "(" ")" | "(" "->" ")" | "(" ","+ ")" | "[" "]"
    | "(" {Constraint ","}+ ")" | "[" Type "]";
syntax Constraint = Signature | Type "~" Type;
syntax DataConstructor
    = ("forall" !>> [a-zA-Z0-9_'] TypeVariable+ ".")? Context? (
        Constructor FieldType*
        | FieldType+ ConstructorOperator FieldType+
        | Constructor "{" {Field ","}* "}");
syntax FieldType = AtomicType | "!" AtomicType;
syntax Field = {Variable ","}+ "::" ("!" AtomicType | Signature);
syntax Deriving = "deriving" !>> [a-zA-Z0-9_'] (QualifiedTypeConstructor | "(" {Type ","}* ")");

// Names.
syntax Variable = VariableName | "(" VariableSign ")";
syntax QualifiedVariable = QualifiedVariableName | "(" QualifiedVariableSign ")";
syntax Constructor = ConstructorName | "(" ConstructorSign ")";
syntax QualifiedConstructor = ModuleName | "(" (ConstructorSign | ":" !>> [!#$%&*+./<=>?@\\\^|\-~:]) ")";
syntax QualifiedTypeConstructor = ModuleName;
syntax TypeVariable = VariableName;
syntax VariableOperator = VariableSign | Backtick VariableName Backtick;
syntax ConstructorOperator = ConstructorSign | ":" !>> [!#$%&*+./<=>?@\\\^|\-~:] | Backtick ModuleName Backtick;
syntax AnyOperator
    = QualifiedVariableSign | ConstructorSign | ":" !>> [!#$%&*+./<=>?@\\\^|\-~:] | Backtick (QualifiedVariableName | ModuleName) Backtick;
syntax SectionOperator
    = QualifiedVariableSign \ "-" | ConstructorSign | ":" !>> [!#$%&*+./<=>?@\\\^|\-~:] | Backtick (QualifiedVariableName | ModuleName) Backtick;
syntax Bar = "|" !>> [!#$%&*+./<=>?@\\\^|\-~:];
lexical Backtick = "`";
lexical ModuleName = {ConstructorName "."}+ !>> ".";
lexical QualifiedVariableName = VariableName | Qualifiers "." VariableName;
lexical QualifiedVariableSign = VariableSign | Qualifiers "." VariableSign;
lexical Qualifiers = {ConstructorName "."}+;
lexical ConstructorName = [A-Z] [a-zA-Z0-9_']* !>> [a-zA-Z0-9_'];
lexical VariableName = Word
    \ "case" \ "class" \ "data" \ "default" \ "deriving" \ "do" \ "else" \ "foreign" \ "if" \ "import" \ "in" \ "infix"
    \ "infixl" \ "infixr" \ "instance" \ "let" \ "module" \ "newtype" \ "of" \ "then" \ "type" \ "where" \ "_";
lexical Word = [a-z_] [a-zA-Z0-9_']* !>> [a-zA-Z0-9_'];

// Operators, each as long as it can be.
lexical VariableSign = Sign
    \ ".." \ "=" \ "\\" \ "|" \ "<-" \ "->" \ "@" \ "~" \ "=>" \ "--" \ "---";
lexical Sign = [!#$%&*+./<=>?@\\\^|\-~] [!#$%&*+./<=>?@\\\^|\-~:]* !>> [!#$%&*+./<=>?@\\\^|\-~:];
lexical ConstructorSign = (":" [!#$%&*+./<=>?@\\\^|\-~:]+ !>> [!#$%&*+./<=>?@\\\^|\-~:]) \ "::";
syntax Right0 = "$" !>> [!#$%&*+./<=>?@\\\^|\-~:] | "$!" !>> [!#$%&*+./<=>?@\\\^|\-~:] | Backtick "seq" Backtick;
lexical Binds = (">>" | ">>=") !>> [!#$%&*+./<=>?@\\\^|\-~:];
lexical BindsBack = ("=<<" | ">=>" | "<=<") !>> [!#$%&*+./<=>?@\\\^|\-~:];
syntax Compares = Comparison | Backtick ("elem" | "notElem") Backtick;
lexical Comparison = ("==" | "/=" | "<" | "<=" | ">" | ">=") !>> [!#$%&*+./<=>?@\\\^|\-~:];
lexical Applies = ("<$>" | "<$" | "$>" | "<*>" | "<*" | "*>") !>> [!#$%&*+./<=>?@\\\^|\-~:];
syntax Conses = "++" !>> [!#$%&*+./<=>?@\\\^|\-~:] | ":" !>> [!#$%&*+./<=>?@\\\^|\-~:] | "\\\\" !>> [!#$%&*+./<=>?@\\\^|\-~:];
lexical Adds = [+\-] !>> [!#$%&*+./<=>?@\\\^|\-~:];
syntax Multiplies = [*/] !>> [!#$%&*+./<=>?@\\\^|\-~:] | Backtick ("div" | "mod" | "rem" | "quot") Backtick;
lexical Raises = ("^" | "^^" | "**") !>> [!#$%&*+./<=>?@\\\^|\-~:];
lexical Dot = "." !>> [!#$%&*+./<=>?@\\\^|\-~:0-9];
syntax OtherOperator
    = OtherSign | ConstructorSign
    | Backtick (OtherName | ModuleName) Backtick;
lexical OtherName = QualifiedVariableName \ "seq" \ "elem" \ "notElem" \ "div" \ "mod" \ "rem" \ "quot";
lexical OtherSign = QualifiedVariableSign
    \ "$" \ "$!" \ ">>" \ ">>=" \ "=<<" \ ">=>" \ "<=<" \ "||" \ "&&" \ "<|>" \ "==" \ "/=" \ "<" \ "<=" \ ">" \ ">="
    \ "<$>" \ "<$" \ "$>" \ "<*>" \ "<*" \ "*>" \ "++" \ "\\\\" \ "+" \ "-" \ "<>" \ "*" \ "/" \ "^" \ "^^" \ "**" \ ".";

// Literals.
syntax Literal = Number | Character | String;
lexical Integer = [0-9]+ !>> [0-9];
lexical Number
    = ([0-9]+ Fraction? | "0" [xX] [0-9a-fA-F]+ | "0" [oO] [0-7]+ | "0" [bB] [01]+) !>> [0-9a-zA-Z_];
lexical Fraction = "." [0-9]+ Exponent? | Exponent;
lexical Exponent = [eE] [+\-]? [0-9]+;
lexical Character = "'" ([^'\\\n] | Escape) "'";
lexical String = "\"" ([^"\\\n] | Escape | "\\&" | "\\" [ \t\n]+ "\\")* "\"";
lexical Escape
    = "\\" ([abfnrtv\\"'] | "^" [A-Z@\[\]\\\^_] | ([0-9]+ !>> [0-9]) | "x" ([0-9a-fA-F]+ !>> [0-9a-fA-F]) | "o" ([0-7]+ !>> [0-7])
        | "NUL" | "SOH" | "STX" | "ETX" | "EOT" | "ENQ" | "ACK" | "BEL" | "BS" | "HT" | "LF" | "VT" | "FF" | "CR" | "SO" !>> "H"
        | "SI" | "DLE" | "DC1" | "DC2" | "DC3" | "DC4" | "NAK" | "SYN" | "ETB" | "CAN" | "EM" | "SUB" | "ESC" | "FS" | "GS"
        | "RS" | "US" | "SP" | "DEL");

// Blanks, tabs and comments, of which those in brackets nest.
layout Layout = Blanks (Comment Blanks)* !>> "{-" !>> "--\n" !>> "-- " !>> "--|" !>> "---";
lexical Blanks = [ \n\r\t]* !>> [ \n\r\t];
lexical Comment
    = "--" Dash* ([a-zA-Z0-9 \t"'(),;\[\]`{}_] [^\n]*)? !>> [^\n]
    | "{-" Inside* "-}";
lexical Dash = "-";
lexical Inside = "{-" Inside* "-}" | [^{\-] | "{" !>> "-" | "-" !>> "}";
