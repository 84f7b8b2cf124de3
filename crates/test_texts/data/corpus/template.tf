locals {
  title = "%{ if var.long }${var.first} %{ else }${var.short}%{ endif }"
  list  = "%{ for name in var.names }${name}, %{ endfor }"
  pairs = "%{ for key, value in var.map ~} ${key}=${value} %{~ endfor }"
  plain = "$${not} %%{ if } \n \t \" \\ \u00e9 \U0001F600"
  empty = ""
  trim  = "${~ var.a ~}"
  only  = "%{ if a }%{ endif }"
}
