data "aws_ami" "ubuntu" {
  most_recent = true
  owners      = ["099720109477"] // Canonical

  filter {
    name   = "name"
    values = ["${var.image}*"]
  }
}

data "aws_subnet" "First" {
  id = tolist(data.aws_subnets.all.ids).0
}
