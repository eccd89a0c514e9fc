start S;
syntax S = S "a" | ;
