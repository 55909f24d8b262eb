Length[Range[3999998]]
