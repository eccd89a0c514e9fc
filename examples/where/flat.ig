// The same definitions without blocks, to see what the indentation decides.
start Program;
syntax Program = Definition*;
syntax Definition = Name Name* "=" Name+;
lexical Name = [a-z]+ !>> [a-z];
layout Space = [ \n]* !>> [ \n];
