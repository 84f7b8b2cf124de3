module "network" {
  source = "./modules/network"

  cidr    = "${var.cidr}"
  subnets = ["${var.subnets}"]
  zones   = "${var.zones[0]}"
  count   = var.subnets == [] ? 0 : 1
  names   = lookup("${var.names}", terraform.workspace)

  providers = {
    aws = aws.west
  }
}
