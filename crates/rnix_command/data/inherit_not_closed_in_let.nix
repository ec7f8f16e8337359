let inherit a b
in a
