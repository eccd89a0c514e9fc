start S;
syntax S = {"a" ","}*;
