start E;
syntax E = E "+" E | "a";
