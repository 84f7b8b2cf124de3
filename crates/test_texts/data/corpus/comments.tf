// Copyright the authors
# and others
/* a block
   comment */
a = 1 // one
b = "// no comment" # two
c = 3 /* three */ // and more
//
