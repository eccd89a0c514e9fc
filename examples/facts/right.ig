start S;
syntax S = "a" S | ;
