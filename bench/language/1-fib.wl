fib[n_] := fib[n - 1] + fib[n - 2]

fib[n_ /; n < 2] := n

fib[22]
