let f = function
  | A -> match x with B -> 1 | C -> 2
