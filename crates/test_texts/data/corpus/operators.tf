locals {
  sum  = 1 + 2 - 3 * 4 / 5 % 6
  not  = !a && !!b || -c > --d
  cmp  = a < b == c <= d
  more = a >= b != (c > d)
  cond = a ? b : c ? d : e
  mix  = a ? (b ? 1 : 2) : -3
  nums = [0, 1.5, 2e10, 3.5E-2, 4e+1]
}
