// A message: `LENGTH:VALUE,` as in netstrings, with a value in the manner of bencode, in which each
// string has its length before it: `4:spam`. No context-free grammar can say that for all lengths.
start Message;

// Two ways to use a length that was read. Here the value is parsed first, and then measured: the
// label `value` binds its span, and the guard compares. A `let` gives a name to a number.
syntax Message
    = length: Length ":" let most = (number(length))
      value: Value when (size(value) == most) ",";

syntax Value = Integer | String | List | Dictionary;

// There the length is handed down as an argument and counted to 0: exactly so many characters are
// taken, whatever they are. `$any` is each character.
syntax String = length: Length ":" Characters(number(length));
syntax Characters(rest: int)
    = when (rest == 0)
    | when (rest > 0) $any Characters(rest - 1);

syntax List = "l" Value* "e";
syntax Dictionary = "d" (String Value)* "e";
syntax Integer = "i" (Length | "-" Positive) "e";

// No leading zeros, so a number is written in one way.
lexical Length = "0" | Positive;
lexical Positive = [1-9] [0-9]*;
