variable "one" {
  description = "First"
}
variable two {
  type = number
}
variable "three" {}
variable "four" { type = string }
variable {
  type = string
}
nested {
  variable "inner" {}
}
output three {
  value = 3
}
