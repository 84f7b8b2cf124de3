a = [for x in lookup(b, "c") : x]
d = e ? lookup(f, "g") : lookup(h, "i").0
j = !lookup(k, "l")
m = -lookup(n, 0)+lookup(o,1)
