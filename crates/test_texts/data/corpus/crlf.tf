// first
variable "x" {
  type = string // text
}
a = b.0
