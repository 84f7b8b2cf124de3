variable "region" {
  type        = string
  description = "Where everything runs"
}

variable "zoneCount" {
  default = 3
}

variable "tags" {
  type    = map(string)
  default = {}
}
