a = 1 # xy // z
b = "cd" // e
