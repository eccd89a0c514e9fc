start S;
syntax S = Name | Name Rest;
syntax Name = [a-z]+;
syntax Rest = "," Name Rest;
syntax Number = [0-9]+;
