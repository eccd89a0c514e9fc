// JSON as RFC 8259 defines it, read character by character.
//
// A grammar begins with the symbol that the whole input has to be.
start Value;

// A `syntax` declaration lists alternatives. After each of its tokens (a literal in quotes, or a
// call of a `lexical` name) comes one layout, declared at the end: no blank is written here.
syntax Value = Object | Array | String | Number | "true" | "false" | "null";

// {X S}* is a list of none, one or more X with an S between each two.
syntax Object = "{" {Member ","}* "}";
syntax Member = String ":" Value;
syntax Array = "[" {Value ","}* "]";

// In a `lexical` declaration nothing stands between the symbols but what is written.
lexical String = "\"" Char* "\"";

// What may stand in a string as it is: from the blank to `!`, from `#` to `[`, and from `]` to
// U+10FFFF, the last character there is, which stands here as itself. So no quote, no backslash and
// none of the 32 control characters.
lexical Char = [ -!#-\[\]-􏿿] | "\\" Escape;
lexical Escape = ["\\/bfnrt] | "u" Hex Hex Hex Hex;
lexical Hex = [0-9A-Fa-f];

// No sign `+`, no leading zero, no point without digits on both sides.
lexical Number = "-"? Whole Fraction? Exponent?;
lexical Whole = "0" | [1-9] [0-9]*;
lexical Fraction = "." [0-9]+;
lexical Exponent = [Ee] [+\-]? [0-9]+;

// What stands after each token, and before the first one. `!>>` asks that none of these characters
// follows, so it is always as long as it can be.
layout Space = [ \t\n\r]* !>> [ \t\n\r];
