// OCaml 4.13, by the grammar of its manual: expressions, patterns, types and modules. Objects and classes, extension
// nodes and quoted strings with names are left out.
start Structure;

// What stands behind `Nothing !>> [^..]` is tried only where the next character is one of these.
syntax Nothing = ;

// Expressions, with operators of a level or tighter ones: 1 is `;`, 2 assignments, 3 commas, 4 `||`, 5 `&&`, 6 comparisons,
// 7 `@` and `^`, 8 `::`, 9 sums, 10 products, 11 powers.
syntax Expression(loosest: int) = Operand | Operand !>> [^;,:<|o&=>$!@\^+\-*/%mla] Operation(loosest, 11);
// An operator between these levels, its right operand, and then no operators that are tighter than it.
syntax Operation(loosest: int, tightest: int)
    = Nothing !>> [^;,] Separated(loosest, tightest) | Nothing !>> [;,] Infix(loosest, tightest);
syntax Separated(loosest: int, tightest: int)
    = when ((loosest <= 1) and (1 <= tightest)) ";" (Expression(2) Rest(loosest, 1))?
    | when ((loosest <= 3) and (3 <= tightest)) "," Expression(4) Rest(loosest, 3);
syntax Infix(loosest: int, tightest: int)
    = when ((loosest <= 2) and (2 <= tightest)) (":=" | "<-" !>> [!$%&*+\-./:<=>?@\^|~]) Expression(2) Rest(loosest, 1)
    | when ((loosest <= 4) and (4 <= tightest)) OrSign Expression(4) Rest(loosest, 3)
    | when ((loosest <= 5) and (5 <= tightest)) AndSign Expression(5) Rest(loosest, 4)
    | when ((loosest <= 6) and (6 <= tightest)) ComparisonSign Expression(7) Rest(loosest, 6)
    | when ((loosest <= 7) and (7 <= tightest)) JoinedSign Expression(7) Rest(loosest, 6)
    | when ((loosest <= 8) and (8 <= tightest)) "::" Expression(8) Rest(loosest, 7)
    | when ((loosest <= 9) and (9 <= tightest)) SumSign Expression(10) Rest(loosest, 9)
    | when ((loosest <= 10) and (10 <= tightest)) ProductSign Expression(11) Rest(loosest, 10)
    | when ((loosest <= 11) and (11 <= tightest)) PowerSign Expression(11) Rest(loosest, 10);
syntax Rest(loosest: int, tightest: int) = | Nothing !>> [^;,:<|o&=>$!@\^+\-*/%mla] Operation(loosest, tightest);
syntax Operand
    = Simple | Simple !>> [)\]};,|=\->+*/<@\^&:.%$] Argument+
    | Nothing !>> [^+\-lfmtia] Prefixed;
syntax Prefixed = Nothing !>> [+\-] Keyworded | Nothing !>> [^+\-] MinusSign Operand;
// What these cover goes as far as it can: no operator, and no `;`, may stand after it. Whether one does is asked once a place.
syntax Keyworded
    = Nothing !>> [^lf] Open !>> ";" !>> "||" Ended
    | Nothing !>> [^mtf] Cases !>> [;|] Ended
    | Nothing !>> [^i] If !>> "||" Ended
    | "assert" !>> [a-zA-Z0-9_'] Simple | "lazy" !>> [a-zA-Z0-9_'] Simple;
syntax Ended = Nothing !>> [,+\-*/%=<>@\^&$#] !>> ":=" !>> "::" !>> "mod " !>> "land " !>> "lor " !>> "lsl " !>> "lsr ";
syntax Argument = Simple | Nothing !>> [^~?] LabelledArgument;
syntax LabelledArgument
    = Label Simple | OptionalLabel Simple
    | "~" LowercaseName !>> ":" | "?" LowercaseName !>> ":";

syntax Open
    = "let" !>> [a-zA-Z0-9_'] Let "in" !>> [a-zA-Z0-9_'] Expression(1)
    | "fun" !>> [a-zA-Z0-9_'] Attribute? Parameter+ (":" SimpleType)? "->" Expression(1);
syntax Let
    = Attribute? ("rec" !>> [a-zA-Z0-9_'])? {Binding "and"}+
    | Nothing !>> [^ome] LetModule;
syntax LetModule
    = "open" !>> [a-zA-Z0-9_'] "!"? ModuleExpression
    | "module" !>> [a-zA-Z0-9_'] CapitalName ModuleParameter* (":" ModuleType)? "=" ModuleExpression
    | "exception" !>> [a-zA-Z0-9_'] ConstructorDeclaration;
syntax Cases
    = "match" !>> [a-zA-Z0-9_'] Attribute? Expression(1) "with" !>> [a-zA-Z0-9_'] "|"? {Case "|"}+
    | "try" !>> [a-zA-Z0-9_'] Attribute? Expression(1) "with" !>> [a-zA-Z0-9_'] "|"? {Case "|"}+
    | "function" !>> [a-zA-Z0-9_'] Attribute? "|"? {Case "|"}+;
syntax Case = Pattern ("when" !>> [a-zA-Z0-9_'] Expression(1))? "->" (Expression(1) | ".");
syntax If
    = "if" !>> [a-zA-Z0-9_'] Attribute? Expression(1) "then" !>> [a-zA-Z0-9_'] Expression(2) "else" !>> [a-zA-Z0-9_'] Expression(2)
    | ("if" !>> [a-zA-Z0-9_'] Attribute? Expression(1) "then" !>> [a-zA-Z0-9_'] Expression(2)) !>> "else";

syntax Binding
    = ValueName Parameter* (":" PolymorphicType)? (":>" Type)? "=" Expression(1) ItemAttribute*
    | ValueName ":" "type" !>> [a-zA-Z0-9_'] LowercaseName+ "." Type "=" Expression(1) ItemAttribute*
    | CompoundPattern (":" Type)? "=" Expression(1) ItemAttribute*;
syntax Parameter
    = SimplePattern
    | "(" "type" !>> [a-zA-Z0-9_'] LowercaseName+ ")"
    | "~" LowercaseName !>> ":" | "?" LowercaseName !>> ":"
    | "~" "(" LowercaseName (":" Type)? ")"
    | "?" "(" LowercaseName (":" Type)? ("=" Expression(1))? ")"
    | Label SimplePattern | OptionalLabel SimplePattern
    | OptionalLabel "(" Pattern (":" Type)? "=" Expression(1) ")";

syntax Simple = Closed | Simple !>> [^.#\[] Suffix;
syntax Suffix = "." FieldPath | ".(" Expression(1) ")" | ".[" Expression(1) "]" | ".{" Expression(1) "}" | HashSign Closed | Attribute;
syntax Closed = LowercaseName | Nothing !>> [_acdeg-suvx-z] Nameless;
syntax Nameless = Nothing !>> [a-zA-Z] Bracketed | Nothing !>> [^A-Z] Capital | Nothing !>> [^tfbw] Worded;
syntax Capital
    = ModulePath "." ValueName
    | CapitalName !>> "." | ModulePath "." ConstructorName !>> "."
    | ModulePath ".(" Expression(1) ")" | ModulePath ".[" {Expression(2) ";"}+ ";"? "]" | ModulePath ".{" Fields "}" | ModulePath ".(" ")";
syntax Bracketed
    = Nothing !>> [^0-9'"{] Constant
    | Nothing !>> [^!~?] PrefixSign Closed
    | "(" Parenthesized
    | "`" CapitalOrLowercase
    | "[" ({Expression(2) ";"}+ ";"?)? "]" | "[|" ({Expression(2) ";"}+ ";"?)? "|]"
    | "{" Fields "}" | "{" Simple "with" !>> [a-zA-Z0-9_'] Fields "}";
syntax Parenthesized
    = ")"
    | Nothing !>> [^!$%&*+\-/<=>?@\^|~:mlao.] OperatorName ")" | "::" ")"
    | Expression(1) (":" Type)? (":>" Type)? ")"
    | "module" !>> [a-zA-Z0-9_'] ModuleExpression (":" ModuleType)? ")";
syntax Worded
    = ("true" !>> [a-zA-Z0-9_'] | "false" !>> [a-zA-Z0-9_'])
    | "begin" !>> [a-zA-Z0-9_'] "end" !>> [a-zA-Z0-9_']
    | "begin" !>> [a-zA-Z0-9_'] Attribute? Expression(1) "end" !>> [a-zA-Z0-9_']
    | "while" !>> [a-zA-Z0-9_'] Expression(1) "do" !>> [a-zA-Z0-9_'] Expression(1) "done" !>> [a-zA-Z0-9_']
    | "for" !>> [a-zA-Z0-9_'] Pattern "=" Expression(1) ("to" !>> [a-zA-Z0-9_'] | "downto" !>> [a-zA-Z0-9_']) Expression(1)
        "do" !>> [a-zA-Z0-9_'] Expression(1) "done" !>> [a-zA-Z0-9_'];
syntax Fields = {Field ";"}+ ";"?;
syntax Field = FieldPath (":" Type)? ("=" !>> [!$%&*+\-./:<=>?@\^|~] Expression(2))?;

// Patterns.
// `p as x` may stand before a comma or a bar, and after none: there `as` takes all before it.
syntax Pattern = Either | Named;
syntax Named = Pattern "as" !>> [a-zA-Z0-9_'] ValueName;
syntax Either = TuplePattern | Named "," TuplePattern | Either "|" TuplePattern | Named "|" TuplePattern;
syntax TuplePattern = {ConsPattern ","}+;
syntax ConsPattern = ConstructorPattern | ConstructorPattern "::" ConsPattern;
syntax ConstructorPattern
    = SimplePattern
    | ConstructorPath ("(" "type" !>> [a-zA-Z0-9_'] LowercaseName+ ")")? SimplePattern
    | "`" CapitalOrLowercase SimplePattern
    | "lazy" !>> [a-zA-Z0-9_'] SimplePattern
    | "exception" !>> [a-zA-Z0-9_'] ConstructorPattern;
syntax SimplePattern = ValueName | NamelessPattern;
syntax NamelessPattern
    = "_" !>> [a-zA-Z0-9_']
    | Nothing !>> [^A-Ztf(] ConstructorPath
    | Nothing !>> [a-zA-Z_] BracketedPattern
    | Nothing !>> [^A-Z] ModulePath ".(" Pattern ")"
    | SimplePattern Attribute;
syntax BracketedPattern
    = SignedConstant | SignedConstant ".." SignedConstant
    | "`" CapitalOrLowercase | "#" TypePath
    | "(" ParenthesizedPattern
    | "[" "]" | "[" {Pattern ";"}+ ";"? "]"
    | "[|" "|]" | "[|" {Pattern ";"}+ ";"? "|]"
    | "{" {FieldPattern ";"}+ (";" "_" !>> [a-zA-Z0-9_'])? ";"? "}";
syntax ParenthesizedPattern
    = ")" | Pattern (":" Type)? ")"
    | "module" !>> [a-zA-Z0-9_'] (CapitalName | "_") (":" ModuleType)? ")";
syntax FieldPattern = FieldPath (":" Type)? ("=" Pattern)?;
// A pattern that isn't a name alone, as in `let (a, b) = ..`.
syntax CompoundPattern
    = NamelessPattern
    | SimplePattern "::" ConsPattern
    | SimplePattern "," {ConsPattern ","}+
    | ConstructorPath SimplePattern
    | "lazy" !>> [a-zA-Z0-9_'] SimplePattern;

// Types.
syntax PolymorphicType = Type | TypeVariable+ "." Type;
syntax Type = Arrow | Type "as" !>> [a-zA-Z0-9_'] TypeVariable;
syntax Arrow = TupleType | TupleType "->" Arrow | LowercaseName ":" TupleType "->" Arrow | "?" LowercaseName ":" TupleType "->" Arrow;
syntax TupleType = {AppliedType "*"}+;
syntax AppliedType = SimpleType | AppliedType TypePath | "(" Type "," {Type ","}+ ")" TypePath;
syntax SimpleType
    = TypeVariable | "_" !>> [a-zA-Z0-9_'] | TypePath | "(" Type Attribute* ")"
    | "<" ">" | "<" ".." ">" | "<" {(LowercaseName ":" PolymorphicType) ";"}+ (";" "..")? ">"
    | "[" "|"? {RowField "|"}+ "]" | "[>" "|"? {RowField "|"}* "]" | "[<" "|"? {RowField "|"}+ (">" Tag+)? "]"
    | "(" "module" !>> [a-zA-Z0-9_'] ModuleType ")";
syntax Tag = "`" CapitalOrLowercase;
syntax RowField = "`" CapitalOrLowercase ("of" !>> [a-zA-Z0-9_'] {Type "&"}+)? | Type;
lexical TypeVariable = "'" LowercaseWord !>> "'";

syntax TypeDefinition = TypeParameters? LowercaseName ("=" "private"? Type)? ("=" "private"? Representation)? Constraint* ItemAttribute*;
syntax TypeExtension = TypeParameters? TypePath "+=" "private"? "|"? {ConstructorDeclaration "|"}+ ItemAttribute*;
syntax TypeParameters = TypeParameter | "(" {TypeParameter ","}+ ")";
syntax TypeParameter = [+\-!]* (TypeVariable | "_");
syntax Constraint = "constraint" !>> [a-zA-Z0-9_'] TypeVariable "=" Type;
syntax Representation = "|"? {ConstructorDeclaration "|"}+ | Record | "..";
syntax ConstructorDeclaration
    = ("(" ")" | "[" "]") Attribute*
    | ConstructorName ("of" !>> [a-zA-Z0-9_'] ConstructorArguments)? Attribute*
    | ConstructorName ":" (ConstructorArguments "->")? AppliedType Attribute*
    | ConstructorName "=" ConstructorPath;
syntax ConstructorArguments = {AppliedType "*"}+ | Record;
syntax Record = "{" {FieldDeclaration ";"}+ ";"? "}";
syntax FieldDeclaration = ("mutable" !>> [a-zA-Z0-9_'])? LowercaseName ":" PolymorphicType Attribute*;

// Modules.
syntax Structure = Definition*;
syntax Definition
    = "let" !>> [a-zA-Z0-9_'] Attribute? ("rec" !>> [a-zA-Z0-9_'])? {Binding "and"}+
    | Nothing !>> [^eimot\[] OtherDefinition;
syntax OtherDefinition
    = "open" !>> [a-zA-Z0-9_'] "!"? ModuleExpression ItemAttribute*
    | "include" !>> [a-zA-Z0-9_'] ModuleExpression ItemAttribute*
    | "module" !>> [a-zA-Z0-9_'] {ModuleBinding "and"}+
    | "module" !>> [a-zA-Z0-9_'] "rec" !>> [a-zA-Z0-9_'] {ModuleBinding "and"}+
    | Common;
syntax ModuleBinding = (CapitalName | "_") ModuleParameter* (":" ModuleType)? "=" ModuleExpression ItemAttribute*;
syntax ModuleParameter = "(" (CapitalName | "_") ":" ModuleType ")" | "(" ")";
syntax Specification
    = "val" !>> [a-zA-Z0-9_'] ValueName ":" Type ItemAttribute*
    | "open" !>> [a-zA-Z0-9_'] "!"? ModulePath ItemAttribute*
    | "include" !>> [a-zA-Z0-9_'] ModuleType ItemAttribute*
    | "module" !>> [a-zA-Z0-9_'] CapitalName ModuleParameter* ":" ModuleType ItemAttribute*
    | "module" !>> [a-zA-Z0-9_'] "rec" !>> [a-zA-Z0-9_'] {(CapitalName ":" ModuleType) "and"}+ ItemAttribute*
    | "module" !>> [a-zA-Z0-9_'] CapitalName "=" ModulePath ItemAttribute*
    | Common;
// What structures and signatures both have.
syntax Common
    = "external" !>> [a-zA-Z0-9_'] ValueName ":" Type "=" String+ ItemAttribute*
    | "type" !>> [a-zA-Z0-9_'] ("nonrec" !>> [a-zA-Z0-9_'])? {TypeDefinition "and"}+
    | "type" !>> [a-zA-Z0-9_'] TypeExtension
    | "exception" !>> [a-zA-Z0-9_'] ConstructorDeclaration ItemAttribute*
    | "module" !>> [a-zA-Z0-9_'] "type" !>> [a-zA-Z0-9_'] CapitalOrLowercase ("=" ModuleType)? ItemAttribute*
    | "[@@@" AttributeName Payload "]";
syntax ModuleExpression
    = ModulePath
    | "struct" !>> [a-zA-Z0-9_'] Structure "end" !>> [a-zA-Z0-9_']
    | "functor" !>> [a-zA-Z0-9_'] ModuleParameter+ "->" ModuleExpression
    | ModuleExpression "(" ModuleExpression ")" | ModuleExpression "(" ")"
    | "(" ModuleExpression (":" ModuleType)? ")"
    | "(" "val" !>> [a-zA-Z0-9_'] Expression(1) (":" ModuleType)? ")";
syntax ModuleType
    = ModuleTypePath
    | "sig" !>> [a-zA-Z0-9_'] Specification* "end" !>> [a-zA-Z0-9_']
    | "functor" !>> [a-zA-Z0-9_'] ModuleParameter+ "->" ModuleType
    | ModuleType "with" !>> [a-zA-Z0-9_'] {ModuleConstraint "and"}+
    | "(" ModuleType ")"
    | "module" !>> [a-zA-Z0-9_'] "type" !>> [a-zA-Z0-9_'] "of" !>> [a-zA-Z0-9_'] ModuleExpression;
syntax ModuleConstraint
    = "type" !>> [a-zA-Z0-9_'] TypeParameters? TypePath ("=" | ":=") "private"? Type
    | "module" !>> [a-zA-Z0-9_'] ModulePath ("=" | ":=") ModulePath;

// Attributes.
syntax Attribute = "[@" !>> "@" AttributeName Payload "]";
syntax ItemAttribute = "[@@" !>> "@" AttributeName Payload "]";
syntax Payload = Expression(1)? | ":" Type;
lexical AttributeName = {Word "."}+;

// Names.
syntax ValueName = LowercaseName | "(" OperatorName ")";
syntax ValuePath = ValueName | ModulePath "." ValueName;
syntax FieldPath = LowercaseName | ModulePath "." LowercaseName;
syntax TypePath = LowercaseName | TypeModulePath "." LowercaseName;
syntax TypeModulePath = CapitalName | TypeModulePath "." CapitalName | TypeModulePath "(" TypeModulePath ")";
syntax ModulePath = CapitalName | ModulePath "." CapitalName;
syntax ModuleTypePath = CapitalOrLowercase | ModulePath "." CapitalOrLowercase;
syntax ConstructorPath = ConstructorName | ModulePath "." ConstructorName;
syntax ConstructorName = CapitalName | "true" !>> [a-zA-Z0-9_'] | "false" !>> [a-zA-Z0-9_'] | "(" "::" ")";
lexical CapitalName = [A-Z] [a-zA-Z0-9_']* !>> [a-zA-Z0-9_'];
lexical CapitalOrLowercase = Word;
lexical Word = [a-zA-Z_] [a-zA-Z0-9_']* !>> [a-zA-Z0-9_'];
lexical LowercaseName = LowercaseWord
    \ "and" \ "as" \ "assert" \ "asr" \ "begin" \ "class" \ "constraint" \ "do" \ "done" \ "downto" \ "else" \ "end"
    \ "exception" \ "external" \ "false" \ "for" \ "fun" \ "function" \ "functor" \ "if" \ "in" \ "include" \ "inherit"
    \ "initializer" \ "land" \ "lazy" \ "let" \ "lor" \ "lsl" \ "lsr" \ "lxor" \ "match" \ "method" \ "mod" \ "module"
    \ "mutable" \ "new" \ "nonrec" \ "object" \ "of" \ "open" \ "or" \ "private" \ "rec" \ "sig" \ "struct" \ "then" \ "to"
    \ "true" \ "try" \ "type" \ "val" \ "virtual" \ "when" \ "while" \ "with" \ "_";
lexical LowercaseWord = [a-z_] [a-zA-Z0-9_']* !>> [a-zA-Z0-9_'];
lexical Label = "~" LowercaseName ":" !>> [=:>];
lexical OptionalLabel = "?" LowercaseName ":" !>> [=:>];

// Operators, each as long as it can be.
lexical OrSign = "||" !>> [!$%&*+\-./:<=>?@\^|~] | "or" !>> [a-zA-Z0-9_'];
lexical AndSign = "&&" !>> [!$%&*+\-./:<=>?@\^|~] | "&" !>> [!$%&*+\-./:<=>?@\^|~];
lexical ComparisonSign
    = ([=<>|&$] Sign* !>> [!$%&*+\-./:<=>?@\^|~]) \ "|" \ "||" \ "&" \ "&&" \ "<-" \ "->"
    | "!=" !>> [!$%&*+\-./:<=>?@\^|~];
lexical JoinedSign = [@\^] Sign* !>> [!$%&*+\-./:<=>?@\^|~];
lexical SumSign = ([+\-] Sign* !>> [!$%&*+\-./:<=>?@\^|~]) \ "->" \ "+=";
lexical ProductSign
    = ([/%] | "*" !>> "*") Sign* !>> [!$%&*+\-./:<=>?@\^|~] | "mod" !>> [a-zA-Z0-9_'] | "land" !>> [a-zA-Z0-9_']
    | "lor" !>> [a-zA-Z0-9_'] | "lxor" !>> [a-zA-Z0-9_'];
lexical PowerSign
    = "**" Sign* !>> [!$%&*+\-./:<=>?@\^|~] | "lsl" !>> [a-zA-Z0-9_'] | "lsr" !>> [a-zA-Z0-9_'] | "asr" !>> [a-zA-Z0-9_'];
lexical MinusSign = "-" !>> [!$%&*+\-./:<=>?@\^|~] | "-." !>> [!$%&*+\-./:<=>?@\^|~] | "+" !>> [!$%&*+\-./:<=>?@\^|~] | "+." !>> [!$%&*+\-./:<=>?@\^|~];
lexical PrefixSign = ("!" Sign* !>> [!$%&*+\-./:<=>?@\^|~]) \ "!=" | [~?] Sign+ !>> [!$%&*+\-./:<=>?@\^|~];
lexical HashSign = "#" Sign+ !>> [!$%&*+\-./:<=>?@\^|~];
lexical Sign = [!$%&*+\-./:<=>?@\^|~];
lexical OperatorName
    = ([!$%&*+\-/<=>?@\^|~] Sign* !>> [!$%&*+\-./:<=>?@\^|~]) \ "|" \ "->" \ "<-"
    | ":=" | "mod" | "land" | "lor" | "lxor" | "lsl" | "lsr" | "asr" | "or" | ".()" | ".()<-"
    | "let" [*+&|$] Sign* | "and" [*+&|$] Sign*;

// Constants.
syntax SignedConstant = Constant | "-" !>> [!$%&*+\-./:<=>?@\^|~] Number;
syntax Constant = Nothing !>> [^0-9] Number | Nothing !>> [^'] Character | Nothing !>> [^"{] String;
lexical Number = Digits [g-oq-zG-OQ-Z]? !>> [a-zA-Z0-9_'.];
lexical Digits
    = [0-9] [0-9_]* Fraction?
    | "0" [xX] [0-9a-fA-F] [0-9a-fA-F_]* ("." [0-9a-fA-F_]*)? ([pP] [+\-]? [0-9] [0-9_]*)?
    | "0" [oO] [0-7] [0-7_]*
    | "0" [bB] [01] [01_]*;
lexical Fraction = "." [0-9_]* Exponent? | Exponent;
lexical Exponent = [eE] [+\-]? [0-9] [0-9_]*;
lexical Character = "'" ([^'\\\n\r] | Escape) "'";
lexical String = "\"" Plain ((Escape | "\\\n" Indent) Plain)* "\"" | "{|" ([^|] | "|" !>> "}")* "|}";
lexical Plain = [^"\\]* !>> [^"\\];
lexical Indent = [ \t]* !>> [ \t];
lexical Escape = "\\" ([\\"'ntbr ] | [0-9] [0-9] [0-9] | "x" Hex Hex | "o" [0-3] [0-7] [0-7] | "u{" Hex+ "}");
lexical Hex = [0-9a-fA-F];

// Blanks and comments, which nest, and in which strings are strings; `;;` between definitions, and lines that say
// where a generated file comes from, are left out like these.
layout Layout = LeftOut !>> [ \t\n\r] !>> "(*";
lexical LeftOut = | LeftOut [ \t\n\r] | LeftOut !>> [^(;#] (Comment | ";;" | LineMark);
lexical LineMark = "#" [0-9] [^\n]* !>> [^\n];
lexical Comment = "(*" Words ((Comment | String | Quote | "(" !>> "*" | "*" !>> ")") Words)* "*)";
lexical Words = [^(*"']* !>> [^(*"'];
// A quote that begins no string, and one that isn't one.
lexical Quote = "'\"'" | "'\\\"'" | "'" !>> "\"" !>> "\\\"'";
