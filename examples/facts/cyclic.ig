start S;
syntax S = S B | "a";
syntax B = | "b";
