Total[Table[i i, {i, 100000}]]
