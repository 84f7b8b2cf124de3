l = [for a in"${b}" : a]
m = [for a in[1] : a if"${c}"]
n = { for a in"${b}" : a => a }
