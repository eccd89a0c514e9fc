// Arithmetic and logic with ten levels of operators.
start Expression;

// Levels are separated by `>`; the first one binds tightest. Behind the operands come, one level
// each: postfix operators, powers to the right, signs, products, sums, comparisons that don't
// chain, `not`, `and`, `or`, and implications to the right.
syntax Expression
    = Number | Name | "(" Expression ")"
    > Expression "!" | Expression "[" Expression "]"
    > right Expression "**" Expression
    > "-" Expression | "+" Expression
    > left Expression "*" Expression | Expression "/" Expression | Expression "%" Expression
    > left Expression "+" Expression | Expression "-" Expression
    > nonassoc Expression "<" Expression | Expression "<=" Expression
             | Expression "==" Expression | Expression "!=" Expression
    > "not" !>> [a-z] Expression
    > left Expression "and" !>> [a-z] Expression
    > left Expression "or" !>> [a-z] Expression
    > right Expression "=>" Expression;

// The words of operators are no names, else `not` alone would be an expression.
lexical Name = Word \ "not" \ "and" \ "or";
lexical Word = [a-z]+ !>> [a-z];
lexical Number = [0-9]+ !>> [0-9];

layout Space = [ \n]* !>> [ \n];
