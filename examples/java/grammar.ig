// Java 17, after the chapters of its language specification: expressions by levels, generics without a trick for
// `>>`, lambdas, switch rules, records, text blocks; keywords by exclusion. Modules and Unicode escapes outside
// literals are left out.
start Unit;

syntax Unit = Package? ImportLine* TypeDeclaration*;
syntax Package = Modifier* "package" !>> [a-zA-Z0-9_$] Name ";";
syntax ImportLine = "import" !>> [a-zA-Z0-9_$] ("static" !>> [a-zA-Z0-9_$])? Name ("." "*")? ";";
syntax TypeDeclaration = Class | ";";

// Classes, interfaces, enumerations, records and annotation types.
syntax Class
    = Modifier* "class" !>> [a-zA-Z0-9_$] Identifier TypeParameters? ("extends" !>> [a-zA-Z0-9_$] ClassType)? Implements? Permits? ClassBody
    | Modifier* "interface" !>> [a-zA-Z0-9_$] Identifier TypeParameters? ("extends" !>> [a-zA-Z0-9_$] {ClassType ","}+)? Permits? ClassBody
    | Modifier* "enum" !>> [a-zA-Z0-9_$] Identifier Implements? "{" {EnumConstant ","}* ","? (";" Member*)? "}"
    | Modifier* "record" !>> [a-zA-Z0-9_$] Identifier TypeParameters? "(" {Parameter ","}* ")" Implements? ClassBody
    | Modifier* "@" "interface" !>> [a-zA-Z0-9_$] Identifier ClassBody;
syntax Implements = "implements" !>> [a-zA-Z0-9_$] {ClassType ","}+;
syntax Permits = "permits" !>> [a-zA-Z0-9_$] {ClassType ","}+;
syntax EnumConstant = Annotation* Identifier Arguments? ClassBody?;
syntax ClassBody = "{" Member* "}";
syntax Member
    = Field | Method | Constructor | Class | ";"
    | ("static" !>> [a-zA-Z0-9_$])? Braces;
syntax Field = Modifier* Type {Variable ","}+ ";";
syntax Variable = Identifier Dimension* ("=" !>> "=" Initializer)?;
syntax Initializer = Expression | "{" {Initializer ","}* ","? "}";
syntax Method
    = Modifier* TypeParameters? Result Identifier "(" {Parameter ","}* ")" Dimension* Throws?
        ("default" !>> [a-zA-Z0-9_$] ElementValue)? (Braces | ";");
syntax Result = Type | "void" !>> [a-zA-Z0-9_$];
syntax Constructor
    = Modifier* TypeParameters? Identifier "(" {Parameter ","}* ")" Throws? Braces
    | Modifier* Identifier Braces;
syntax Throws = "throws" !>> [a-zA-Z0-9_$] {(Annotation* ClassType) ","}+;
syntax Parameter = Modifier* (Type | (PrimitiveWord | ClassPart) Dimension* Annotation* "...") (Identifier | (Identifier ".")? "this" !>> [a-zA-Z0-9_$]) Dimension*;
syntax Modifier
    = Annotation
    | ModifierWord;
lexical ModifierWord
    = ("public" | "protected" | "private" | "static" | "abstract" | "final" | "native" | "synchronized" | "transient"
        | "volatile" | "strictfp" | "default" | "sealed" | "non-sealed") !>> [a-zA-Z0-9_$];
syntax Annotation
    = "@" !>> "interface" Name
    | "@" !>> "interface" Name "(" ")"
    | "@" !>> "interface" Name "(" ElementValue ")"
    | "@" !>> "interface" Name "(" {ElementPair ","}+ ")";
syntax ElementPair = Identifier "=" !>> "=" ElementValue;
syntax ElementValue = Conditional | Annotation | "{" {ElementValue ","}* ","? "}";

// Types.
// A type that begins a declaration has no annotations of its own: those before it are modifiers.
syntax Type = (PrimitiveWord | ClassType) Dimension*;
syntax AnnotatedType = Annotation* Type;
syntax Dimension = Annotation* "[" "]";
lexical PrimitiveWord = ("byte" | "short" | "int" | "long" | "char" | "float" | "double" | "boolean") !>> [a-zA-Z0-9_$];
syntax ClassType = ClassPart !>> ".";
syntax ClassPart = TypeIdentifier TypeArguments? | ClassPart "." Annotation* TypeIdentifier TypeArguments?;
syntax TypeArguments = "<" {TypeArgument ","}+ ">";
syntax TypeArgument
    = AnnotatedType
    | Annotation* "?" (("extends" !>> [a-zA-Z0-9_$] | "super" !>> [a-zA-Z0-9_$]) AnnotatedType)?;
syntax TypeParameters = "<" {TypeParameter ","}+ ">";
syntax TypeParameter = Annotation* Identifier ("extends" !>> [a-zA-Z0-9_$] {ClassType "&"}+)?;

// Statements; with n = 1 none that ends with an `if` without `else`.
syntax Braces = "{" BlockStatement* "}";
syntax BlockStatement
    = Statement(0) | Class
    | LocalVariable ";";
syntax LocalVariable = LocalModifier* Type {Variable ","}+;
syntax LocalModifier = Annotation | "final" !>> [a-zA-Z0-9_$];
syntax Statement(n: int)
    = Braces | ";"
    | StatementExpression ";"
    | Identifier ":" !>> ":" Statement(n)
    | when (n == 0) "if" !>> [a-zA-Z0-9_$] "(" Expression ")" Statement(0)
    | "if" !>> [a-zA-Z0-9_$] "(" Expression ")" Statement(1) "else" !>> [a-zA-Z0-9_$] Statement(n)
    | "while" !>> [a-zA-Z0-9_$] "(" Expression ")" Statement(n)
    | "do" !>> [a-zA-Z0-9_$] Statement(0) "while" !>> [a-zA-Z0-9_$] "(" Expression ")" ";"
    | "for" !>> [a-zA-Z0-9_$] "(" (LocalVariable | {StatementExpression ","}*) ";" Expression? ";" {StatementExpression ","}* ")" Statement(n)
    | "for" !>> [a-zA-Z0-9_$] "(" LocalModifier* Type Identifier ":" !>> ":" Expression ")" Statement(n)
    | "switch" !>> [a-zA-Z0-9_$] "(" Expression ")" SwitchBlock
    | "synchronized" !>> [a-zA-Z0-9_$] "(" Expression ")" Braces
    | "try" !>> [a-zA-Z0-9_$] Braces Catch+
    | "try" !>> [a-zA-Z0-9_$] Braces Catch* "finally" !>> [a-zA-Z0-9_$] Braces
    | "try" !>> [a-zA-Z0-9_$] "(" {Resource ";"}+ ";"? ")" Braces Catch* ("finally" !>> [a-zA-Z0-9_$] Braces)?
    | "return" !>> [a-zA-Z0-9_$] Expression? ";"
    | "throw" !>> [a-zA-Z0-9_$] Expression ";"
    | "break" !>> [a-zA-Z0-9_$] Identifier? ";"
    | "continue" !>> [a-zA-Z0-9_$] Identifier? ";"
    | "yield" !>> [a-zA-Z0-9_$] Expression ";"
    | "assert" !>> [a-zA-Z0-9_$] Expression (":" Expression)? ";";
syntax Catch = "catch" !>> [a-zA-Z0-9_$] "(" LocalModifier* {ClassType "|"}+ Identifier ")" Braces;
syntax Resource = LocalModifier* Type Identifier "=" Expression | Name | FieldAccess;
syntax SwitchBlock = "{" SwitchGroup* SwitchLabel* "}" | "{" SwitchRule+ "}";
syntax SwitchGroup = SwitchLabel+ BlockStatement+;
syntax SwitchLabel = "case" !>> [a-zA-Z0-9_$] {Conditional ","}+ ":" !>> ":" | "default" !>> [a-zA-Z0-9_$] ":";
syntax SwitchRule
    = ("case" !>> [a-zA-Z0-9_$] {Conditional ","}+ | "default" !>> [a-zA-Z0-9_$]) "->" (Expression ";" | Braces | "throw" !>> [a-zA-Z0-9_$] Expression ";");
syntax StatementExpression
    = Assignment | Increment | Decrement | Call | Creation
    | Postfix "++" | Postfix "--";

// Expressions, level by level.
syntax Expression = Conditional | Assignment | Lambda;
syntax Lambda = (Identifier | "(" {Identifier ","}* ")" | "(" {Parameter ","}+ ")") "->" (Expression | Braces);
syntax Assignment = Target AssignmentSign Expression;
syntax Target = Name | FieldAccess | ArrayAccess | "(" Target ")";
syntax AssignmentSign
    = "=" !>> "=" | "*=" | "/=" | "%=" | "+=" | "-=" | "<<=" | ">>=" | ">>>=" | "&=" | "^=" | "|=";
syntax Conditional = Or | Or "?" Expression ":" !>> ":" (Conditional | Lambda);
syntax Or = And | Or "||" And;
syntax And = BitOr | And "&&" BitOr;
syntax BitOr = BitXor | BitOr "|" !>> [|=] BitXor;
syntax BitXor = BitAnd | BitXor "^" !>> "=" BitAnd;
syntax BitAnd = Equality | BitAnd "&" !>> [&=] Equality;
syntax Equality = Relation | Equality ("==" | "!=") Relation;
syntax Relation
    = Shift | Relation ("<" !>> [<=] | ">" !>> [>=] | "<=" | ">=") Shift
    | Relation "instanceof" !>> [a-zA-Z0-9_$] LocalModifier* Type Identifier?;
syntax Shift = Sum | Shift ("<<" !>> "=" | ">>" !>> [>=] | ">>>" !>> "=") Sum;
syntax Sum = Product | Sum ("+" !>> [+=] | "-" !>> [\-=>]) Product;
syntax Product = Unary | Product ("*" !>> "=" | "/" !>> "=" | "%" !>> "=") Unary;
syntax Unary = Increment | Decrement | ("+" !>> "+" | "-" !>> "-") Unary | Plain;
syntax Increment = "++" Unary;
syntax Decrement = "--" Unary;
// What a cast to a class may stand before: `(a) + b` is a sum.
syntax Plain = Postfixed | "~" Unary | "!" !>> "=" Unary | Cast | Switch;
syntax Switch = "switch" !>> [a-zA-Z0-9_$] "(" Expression ")" SwitchBlock;
syntax Cast
    = "(" Annotation* PrimitiveWord ")" Unary
    | "(" Annotation* PrimitiveWord Dimension+ ")" Plain
    | "(" Annotation* ClassType Dimension* ("&" ClassType)* ")" (Plain | Lambda);
syntax Postfixed = Postfix | Postfix "++" | Postfix "--";
syntax Postfix = Primary | Name;
syntax Primary = NoNewArray | NewArray;
syntax NoNewArray
    = Literal | "(" Expression ")" | Creation | FieldAccess | ArrayAccess | Call | Reference
    | "this" !>> [a-zA-Z0-9_$] | Name "." "this" !>> [a-zA-Z0-9_$]
    | (PrimitiveWord | Name) Dimension* "." "class" !>> [a-zA-Z0-9_$] | "void" !>> [a-zA-Z0-9_$] "." "class" !>> [a-zA-Z0-9_$];
syntax FieldAccess
    = Primary "." Identifier
    | "super" !>> [a-zA-Z0-9_$] "." Identifier | Name "." "super" !>> [a-zA-Z0-9_$] "." Identifier;
syntax ArrayAccess = (Name | NoNewArray) "[" Expression "]";
syntax Call
    = Name Arguments
    | Primary "." TypeArguments? Identifier Arguments
    | Name "." TypeArguments Identifier Arguments
    | (Name ".")? "super" !>> [a-zA-Z0-9_$] "." TypeArguments? Identifier Arguments
    // Of constructors alone.
    | TypeArguments? ("this" !>> [a-zA-Z0-9_$] | "super" !>> [a-zA-Z0-9_$]) Arguments
    | (Name | Primary) "." TypeArguments? "super" !>> [a-zA-Z0-9_$] Arguments;
syntax Arguments = "(" {Expression ","}* ")";
syntax Reference
    = (Primary | ReferenceType | "super" !>> [a-zA-Z0-9_$] | Name "." "super" !>> [a-zA-Z0-9_$]) "::" TypeArguments? (Identifier | "new" !>> [a-zA-Z0-9_$]);
// A type after which `::` stands; a name is read as one.
syntax ReferenceType = ClassType Dimension* | PrimitiveWord Dimension+;
syntax Creation
    = "new" !>> [a-zA-Z0-9_$] TypeArguments? CreatedType Arguments ClassBody?
    | (Name | Primary) "." "new" !>> [a-zA-Z0-9_$] TypeArguments? CreatedType Arguments ClassBody?;
syntax CreatedType = Annotation* ClassPart ("<" ">")?;
syntax NewArray
    = "new" !>> [a-zA-Z0-9_$] (Annotation* (PrimitiveWord | ClassType)) Dimension+ "{" {Initializer ","}* ","? "}"
    | "new" !>> [a-zA-Z0-9_$] (Annotation* (PrimitiveWord | ClassType)) (Annotation* "[" Expression "]")+ Dimension*;

// Names and keywords.
syntax Name = Identifier | Name "." Identifier;
lexical Identifier = Word
    \ "abstract" \ "assert" \ "boolean" \ "break" \ "byte" \ "case" \ "catch" \ "char" \ "class" \ "const" \ "continue"
    \ "default" \ "do" \ "double" \ "else" \ "enum" \ "extends" \ "final" \ "finally" \ "float" \ "for" \ "goto" \ "if"
    \ "implements" \ "import" \ "instanceof" \ "int" \ "interface" \ "long" \ "native" \ "new" \ "package" \ "private"
    \ "protected" \ "public" \ "return" \ "short" \ "static" \ "strictfp" \ "super" \ "switch" \ "synchronized" \ "this"
    \ "throw" \ "throws" \ "transient" \ "try" \ "void" \ "volatile" \ "while" \ "_" \ "true" \ "false" \ "null";
lexical TypeIdentifier = Identifier \ "permits" \ "record" \ "sealed" \ "yield";
lexical Word = [a-zA-Z_$] [a-zA-Z0-9_$]* !>> [a-zA-Z0-9_$];

// Literals.
syntax Literal
    = Number | Character | String
    | LiteralWord;
lexical LiteralWord = ("true" | "false" | "null") !>> [a-zA-Z0-9_$];
lexical Number
    = Decimal Suffix? !>> [a-zA-Z0-9_$]
    | HexadecimalOrBinary [lL]? !>> [a-zA-Z0-9_$.]
    | "0" [xX] [0-9a-fA-F_]* "."? [0-9a-fA-F_]* [pP] [+\-]? [0-9]+ [fFdD]? !>> [a-zA-Z0-9_$];
lexical HexadecimalOrBinary = "0" [xX] [0-9a-fA-F_]+ !>> [0-9a-fA-F_] | "0" [bB] [01_]+;
lexical Suffix = [lL] | [fFdD];
lexical Decimal = [0-9] [0-9_]* !>> [0-9_] !>> "." | [0-9] [0-9_]* Exponent | [0-9] [0-9_]* "." [0-9_]* Exponent? | "." [0-9] [0-9_]* Exponent?;
lexical Exponent = [eE] [+\-]? [0-9] [0-9_]*;
lexical Character = "'" ([^'\\\n] | Escape) "'";
lexical String = "\"" !>> "\"\"" Characters (Escape Characters)* "\"" | "\"\"\"" [ \t]* "\n" ([^"\\] | Escape | "\\\n" | "\"" !>> "\"\"")* "\"\"\"";
lexical Characters = [^"\\\n]* !>> [^"\\\n];
lexical Escape = "\\" ([btnfrs"'\\] | Octal | "u"+ Hex Hex Hex Hex);
lexical Octal = [0-7] !>> [0-7] | [0-3] [0-7] !>> [0-7] | [4-7] [0-7] | [0-3] [0-7] [0-7];
lexical Hex = [0-9a-fA-F];

// Blanks and comments.
layout Layout = Blanks (Comment Blanks)* !>> "/*" !>> "//";
lexical Blanks = [ \t\n\r]* !>> [ \t\n\r];
lexical Comment = "//" [^\n]* !>> [^\n] | "/*" Words (Star Words)* "*/";
lexical Words = [^*]* !>> [^*];
lexical Star = "*" !>> "/";
