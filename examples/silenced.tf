# The provider asks for these names.
locals {
  # tflint-ignore: terraform_naming_convention # the provider's name
  webURL = "https://example.com"

  dnsName = "example.com" # tflint-ignore: terraform_naming_convention

  # tflint-ignore: terraform_naming_convention, terraform_deprecated_index
  firstHost = var.hosts.0

  otherName = "example.org"
}
