locals {
  a = 1 # one
  bbb = 22 # two

  cccc = 333
  d = { # three
    e = 1
  }
  f = 4 // four
}
