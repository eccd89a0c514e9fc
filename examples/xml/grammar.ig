// Elements of XML: the end tag has the name of its start tag. No context-free grammar can say that
// for all names; here a label and a guard say it.
//
// No layout is declared, since blanks between tags belong to the text of a document. They are
// written where they may stand.
start Document;

syntax Document = Misc* Element Misc*;
syntax Misc = Comment | Blank;

// `open: Name` binds the variable `open` to the span of that name. The second alternative asks at
// its end whether the two spans have the same text; where they don't, it has no tree.
syntax Element
    = "<" Name Attribute* Blanks "/>"
    | "<" open: Name Attribute* Blanks ">" Content "</" close: Name Blanks ">"
      when (same(open, close));

syntax Content = (Text | Element | Comment | Reference)*;

// Text is as long as it can be: without the filter `ab` could be one text, or two.
lexical Text = [^<&]+ !>> [^<&];

lexical Attribute = Blank Blanks Name Blanks "=" Blanks Value;
lexical Value = "\"" ([^<&"] | Reference)* "\"" | "'" ([^<&'] | Reference)* "'";

// The five entities that need no declaration, and characters by number. `spells` compares a span
// with a literal. An expression has one operator, so each part that has one stands in brackets.
lexical Reference
    = "&" name: Name ";"
      when ((spells(name, "lt") or spells(name, "gt"))
        or ((spells(name, "amp") or spells(name, "apos")) or spells(name, "quot")))
    | "&#" [0-9]+ ";"
    | "&#x" [0-9A-Fa-f]+ ";";

// A comment has no `--` inside: each `-` is followed by something else.
lexical Comment = "<!--" ([^\-] | "-" [^\-])* "-->";

// A name is followed by a blank or a sign wherever it stands, so it needs no filter.
lexical Name = ($xid_start | [_:]) ($xid_continue | [:.\-])*;

lexical Blank = [ \t\n\r];
lexical Blanks = Blank* !>> [ \t\n\r];
