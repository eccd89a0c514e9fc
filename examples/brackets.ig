start B;
syntax B = | "(" B ")" B | "[" B "]" B;
