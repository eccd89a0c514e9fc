start S;
syntax S = Mark S "." | "a";
syntax Mark = | "!";
