locals {
  a = "${"${var.x}"}"
  b = "${upper("${var.y}")}"
  c = ["${var.z}", "${"a"}"]
}
