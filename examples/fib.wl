(* Each value is computed once, and kept as a rule of its own. *)
fib[0] = 0; fib[1] = 1;

fib[n_] := fib[n] = fib[n - 1] + fib[n - 2]

fib[10]

Table[fib[i], {i, 0, 10}]

Select[Table[fib[i], {i, 0, 30}], EvenQ]

fib[100]

fib[184]

(* The next one is out of 128 bits. *)
fib[185]
