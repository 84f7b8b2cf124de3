a = b.0.1.2
c = "${d.0}"
e = "${f}" == []
g = lookup(h.0, "${i}")
j = lookup(k, "l") == []
m = ["${n}","${o}"]
