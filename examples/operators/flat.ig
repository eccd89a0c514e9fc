// Sums without levels: each way to put brackets is a tree.
start Expression;
syntax Expression = Number | Expression "-" Expression;
lexical Number = [0-9]+ !>> [0-9];
layout Space = [ \n]* !>> [ \n];
