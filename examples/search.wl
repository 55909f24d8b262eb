(* Queens that do not attack one another: a board is the List of the columns of its rows, from the first. *)
safe[board_, c_] := And @@ Table[board[[i]] != c && Abs[board[[i]] - c] != Length[board] + 1 - i, {i, Length[board]}]

(* Each board with one more row, in each way that is safe. *)
step[n_, boards_] := Flatten[Table[Map[Append[b, #] &, Select[Range[n], safe[b, #] &]], {b, boards}], 1]

queens[n_] := Nest[step[n, #] &, {{}}, n]

queens[4]

Table[Length[queens[n]], {n, 1, 6}]

First[queens[6]]

(* Numbers that are the sum of their divisors. *)
perfect[n_] := Total[Select[Range[n - 1], Mod[n, #] == 0 &]] == n

Select[Range[100], perfect]

(* From 7 to 1: half of an even number, one more than three times an odd one. *)
NestList[If[EvenQ[#], Quotient[#, 2], 3 # + 1] &, 7, 16]
