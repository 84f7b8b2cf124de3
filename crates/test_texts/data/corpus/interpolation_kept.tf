locals {
  sum    = 1 + "${a + b}"
  choice = "${a ? b : c}" == d
  lines = "${
    a
  }"
  ok     = "${a + b}"
  tuple  = ["${a || b}"]
  parens = ("${!a}")
  index  = m["${a - 1}"]
  inside = "x${"${a * b}"}"
}
