Length[Nest[{#, #} &, x, 16]]
