Take[Sort[Table[Mod[7919 i, 100003], {i, 100000}]], 3]
