# tflint-ignore: terraform_deprecated_index
a = b.0
c = d.0
e = "${f}" // tflint-ignore: all
g = h == [] /* tflint-ignore: terraform_empty_list_equality, terraform_comment_syntax */
// tflint-ignore: terraform_comment_syntax # said elsewhere
i = 1 // two
j = 2 // three
# tflint-ignore:terraform_typed_variables,terraform_documented_variables
variable "quiet" {}
# tflint-ignore: terraform_none
k = l.1
