lists = Table[Mod[i j, 23], {i, 1000}, {j, 20}];

Total[Cases[lists, {___, 7, x___, 3, ___} :> Length[{x}]]]
