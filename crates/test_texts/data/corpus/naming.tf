resource "aws_instance" "webServer" {}
resource "aws_instance" "web_server" {}
data "aws_ami" "ubuntu-22" {}
module "Net" {}
module "net_2" {}
variable "a__b" {
  type        = string
  description = "Two underlines"
}
locals {
  _private = 1
  fine_1   = 2
  x9_y     = 3
  Zed      = 4
}
check "NotNamed" {}
