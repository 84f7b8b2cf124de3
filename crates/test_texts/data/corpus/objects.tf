locals {
  commas = { a = 1, b = 2, "c" = 3 }
  colons = { a : 1, b : 2, }
  lines = {
    a   = 1
    (b) = 2
    "c-${d}" : 3,
    "${e}" = 4

    f = { g = {} }
  }
  none = {
  }
}
