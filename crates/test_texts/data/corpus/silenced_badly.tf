# tflint-ignore terraform_deprecated_index
a = b.0
# tflint-ignore: terraform_deprecated_index because
c = d.0
# tflint-ignore: terraform_deprecated_index,
e = f.0
x = "# tflint-ignore: all"
g = h.0 /* tflint-ignore: terraform_deprecated_index */ + i.0
j = k.0
l = m.0
