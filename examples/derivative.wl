(* Derivatives by rules: d[e, x] is that of e by x. What no rule knows stays. *)
d[c_, x_] := 0 /; FreeQ[c, x]

d[x_, x_] := 1

d[u_ + v_, x_] := d[u, x] + d[v, x]

d[u_ v_, x_] := v d[u, x] + u d[v, x]

d[u_^n_, x_] := n u^(n - 1) d[u, x] /; IntegerQ[n]

d[x^3 - 2 x + 5, x]

d[(x + 1)^3, x]

d[x y^2, x]

d[d[x^4, x], x]

d[3 x f[x], x]

(* A product of a sum is a sum of products. *)
expand = a_ (b_ + c_) -> a b + a c

d[x^2 (x + 1), x]

d[x^2 (x + 1), x] //. expand
