start S;
syntax S = S S | "a";
