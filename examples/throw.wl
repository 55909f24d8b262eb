(* the first square above 1000 *)
Catch[Do[If[i^2 > 1000, Throw[i^2]], {i, 100}]]

(* a product that ends at the first zero *)
times[items_] := Catch[Fold[If[#2 == 0, Throw[0], #1 #2] &, 1, items]]

{times[{2, 3, 4}], times[{2, 0, u, v}]}

(* Block puts back what it had, also where a throw leaves it *)
depth = 0;

Catch[Block[{depth = 5}, Throw[depth + 1]]]

depth

(* what nothing catches *)
Throw[{1, 2}]
