locals {
  list = [ // first
    1,     // second
    2,     # third
    // fourth
  ]
  map = { // fifth
    a = 1 // sixth
    // seventh
    b = 2
  }
}
