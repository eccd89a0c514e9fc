(* Trees of search, and what one does with them: "a string (* in a comment". *)
module type Order = sig
  type t
  val compare : t -> t -> int
end

module Make (Ord : Order) : sig
  type t
  val empty : t
  val add : Ord.t -> t -> t
end = struct
  type t = Leaf | Node of { left : t; key : Ord.t; right : t }

  let empty = Leaf

  let rec add key = function
    | Leaf -> Node { left = Leaf; key; right = Leaf }
    | Node n as tree ->
      let order = Ord.compare key n.key in
      if order = 0 then tree
      else if order < 0 then Node { n with left = add key n.left }
      else Node { n with right = add key n.right }
end

exception Found of int

let ( +: ) a b = (a, b)

let find ?(from = 0) ~test items =
  try
    for i = from to Array.length items - 1 do
      if test items.(i) then raise (Found i)
    done;
    None
  with Found i -> Some i | Not_found -> None

let describe x y =
  match x, y with
  | 0, _ | _, 0 -> "zero"
  | a, b when a > 0 && b > 0 ->
    let sum = a + b * 2 - -1 in
    print_endline (string_of_int sum); "positive"
  | _ ->
    match x with
    | 1 -> "one"
    | n -> Printf.sprintf "%d" n

let pipeline = [1; 2; 3] |> List.map (fun x -> x * x) |> List.fold_left ( + ) 0
