x = 3

x + 4

HoldComplete[# + 1 & /@ a]
