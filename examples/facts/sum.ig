start E;
syntax E = E "+" T | T;
syntax T = "a" | "(" E ")";
