a = "${"${"${b}"}"}"
c = lookup(lookup(lookup(d, "e"), "f"), "g")
h = i == [] == [] == []
