resource "aws_instance" "web" {
  ami  = "${var.ami}"
  name = "web-${var.name}"
  type = "${var.type}" // small
  tags = {
    "${var.key}" = "${var.value}"
    Owner        = "${local.owner}"
  }
}
