// XML 1.0 (fifth edition): the productions of grammar.ebnf that a document reaches, in the notation of this
// program, and what that notation can say besides. Names are those of the recommendation, numbers stand beside
// them. Each place that differs has a comment that begins with CHANGED.
//
// No layout is declared, since blanks stand only where the recommendation writes S.
start document;

// 1, 22, 27
syntax document = prolog element Misc*;
syntax prolog = XMLDecl? Misc* (doctypedecl Misc*)?;
syntax Misc = Comment | PI | S;

// 39, 40, 42, 44 CHANGED: an end tag has the name of its start tag, the constraint "Element Type Match". STag
// stands in element, since a label is seen in its own alternative alone; the span of the name goes to ETag.
syntax element = EmptyElemTag | "<" open: Name (S Attribute)* S? ">" content ETag(open);
syntax EmptyElemTag = "<" Name (S Attribute)* S? "/>";
syntax ETag(open: span) = "</" close: Name when (same(open, close)) S? ">";

// 43
syntax content = CharData? ((element | Reference | CDSect | PI | Comment) CharData?)*;

// 41, 25, 10
lexical Attribute = Name Eq AttValue;
lexical Eq = S? "=" S?;
lexical AttValue = "\"" ([\t\n\r !#-%'-;=-퟿-�𐀀-􏿿] | Reference)* "\"" | "'" ([\t\n\r -%(-;=-퟿-�𐀀-􏿿] | Reference)* "'";

// 2: the characters U+0009, U+000A, U+000D, U+0020 to U+D7FF, U+E000 to U+FFFD and U+10000 to U+10FFFF. The
// classes below that begin with a tab have these characters but the signs that the recommendation names.
// 3 CHANGED: blanks go as far as they can. By the recommendation alone they are one S or several in Misc* and in
// intSubset, and the blanks after the target of an instruction begin its text or not.
lexical S = [ \t\r\n]+ !>> [ \t\r\n];

// 4, 4a, 5. NameStartChar has U+200C to U+200D, U+2070 to U+218F, U+2C00 to U+2FEF, U+3001 to U+D7FF, U+F900 to
// U+FDCF, U+FDF0 to U+FFFD and U+10000 to U+EFFFF at its end; NameChar has U+203F to U+2040 as well.
lexical NameStartChar = [:A-Z_a-zÀ-ÖØ-öø-˿Ͱ-ͽͿ-῿‌‍⁰-↏Ⰰ-⿯、-퟿豈-﷏ﷰ-�𐀀-󯿿];
lexical NameChar = [\-.0-9:A-Z_a-z·À-ÖØ-öø-ͽͿ-῿‌‍‿⁀⁰-↏Ⰰ-⿯、-퟿豈-﷏ﷰ-�𐀀-󯿿];
lexical Name = NameStartChar NameChar*;

// 14 CHANGED: text is as long as it can be, and not empty, since each use of it is optional. It has no `]]>`: a
// `>` doesn't stand after `]]`.
lexical CharData = ([\t\n\r -%'-;=?-퟿-�𐀀-􏿿] | ">" !<< "]]")+ !>> [\t\n\r -%'-;=-퟿-�𐀀-􏿿];

// 15
lexical Comment = "<!--" ([\t\n\r -,.-퟿-�𐀀-􏿿] | "-" [\t\n\r -,.-퟿-�𐀀-􏿿])* "-->";

// 16, 17: there is no `?>` in the text of an instruction, and its target isn't `xml`, in whichever case.
lexical PI = "<?" PITarget (S ([\t\n\r -=?-퟿-�𐀀-􏿿] | ">" !<< "?")*)? "?>";
lexical PITarget
    = Name \ "xml" \ "xmL" \ "xMl" \ "xML" \ "Xml" \ "XmL" \ "XMl" \ "XML";

// 18 to 21
lexical CDSect = CDStart CData CDEnd;
lexical CDStart = "<![CDATA[";
lexical CData = ([\t\n\r -=?-퟿-�𐀀-􏿿] | ">" !<< "]]")*;
lexical CDEnd = "]]>";

// 23, 24, 26, 32, 80, 81
lexical XMLDecl = "<?xml" VersionInfo EncodingDecl? SDDecl? S? "?>";
lexical VersionInfo = S "version" Eq ("'" VersionNum "'" | "\"" VersionNum "\"");
lexical VersionNum = "1." [0-9]+;
lexical SDDecl = S "standalone" Eq ("'" ("yes" | "no") "'" | "\"" ("yes" | "no") "\"");
lexical EncodingDecl = S "encoding" Eq ("\"" EncName "\"" | "'" EncName "'");
lexical EncName = [A-Za-z] ([A-Za-z0-9._] | "-")*;

// 28, 28a, 28b, 29
lexical doctypedecl = "<!DOCTYPE" S Name (S ExternalID)? S? ("[" intSubset "]" S?)? ">";
lexical DeclSep = PEReference | S;
lexical intSubset = (markupdecl | DeclSep)*;
lexical markupdecl = elementdecl | AttlistDecl | EntityDecl | NotationDecl | PI | Comment;

// 45 to 51
lexical elementdecl = "<!ELEMENT" S Name S contentspec S? ">";
lexical contentspec = "EMPTY" | "ANY" | Mixed | children;
lexical children = (choice | seq) ("?" | "*" | "+")?;
lexical cp = (Name | choice | seq) ("?" | "*" | "+")?;
lexical choice = "(" S? cp (S? "|" S? cp)+ S? ")";
lexical seq = "(" S? cp (S? "," S? cp)* S? ")";
lexical Mixed = "(" S? "#PCDATA" (S? "|" S? Name)* S? ")*" | "(" S? "#PCDATA" S? ")";

// 52 to 60
lexical AttlistDecl = "<!ATTLIST" S Name AttDef* S? ">";
lexical AttDef = S Name S AttType S DefaultDecl;
lexical AttType = StringType | TokenizedType | EnumeratedType;
lexical StringType = "CDATA";
lexical TokenizedType
    = "ID" | "IDREF" | "IDREFS" | "ENTITY" | "ENTITIES" | "NMTOKEN" | "NMTOKENS";
lexical EnumeratedType = NotationType | Enumeration;
lexical NotationType = "NOTATION" S "(" S? Name (S? "|" S? Name)* S? ")";
lexical Enumeration = "(" S? Nmtoken (S? "|" S? Nmtoken)* S? ")";
lexical Nmtoken = NameChar+;
lexical DefaultDecl = "#REQUIRED" | "#IMPLIED" | ("#FIXED" S)? AttValue;

// 66 to 69
lexical CharRef = "&#" [0-9]+ ";" | "&#x" [0-9a-fA-F]+ ";";
lexical Reference = EntityRef | CharRef;
lexical EntityRef = "&" Name ";";
lexical PEReference = "%" Name ";";

// 70 to 76, 9, 11 to 13
lexical EntityDecl = GEDecl | PEDecl;
lexical GEDecl = "<!ENTITY" S Name S EntityDef S? ">";
lexical PEDecl = "<!ENTITY" S "%" S Name S PEDef S? ">";
lexical EntityDef = EntityValue | ExternalID NDataDecl?;
lexical PEDef = EntityValue | ExternalID;
lexical ExternalID = "SYSTEM" S SystemLiteral | "PUBLIC" S PubidLiteral S SystemLiteral;
lexical NDataDecl = S "NDATA" S Name;
lexical EntityValue
    = "\"" ([\t\n\r !#$'-퟿-�𐀀-􏿿] | PEReference | Reference)* "\""
    | "'" ([\t\n\r -$(-퟿-�𐀀-􏿿] | PEReference | Reference)* "'";
lexical SystemLiteral = "\"" [\t\n\r !#-퟿-�𐀀-􏿿]* "\"" | "'" [\t\n\r -&(-퟿-�𐀀-􏿿]* "'";
lexical PubidLiteral = "\"" PubidChar* "\"" | "'" (PubidChar \ "'")* "'";
lexical PubidChar = [ \r\na-zA-Z0-9\-'()+,./:=?;!*#@$_%];

// 82, 83
lexical NotationDecl = "<!NOTATION" S Name S (ExternalID | PublicID) S? ">";
lexical PublicID = "PUBLIC" S PubidLiteral;
