"""Terraform as people write it: blocks of every kind, with work for a formatter and a linter."""

WORDS = """app api web data core edge auth cache queue worker batch stream audit backup billing
cluster config deploy events gateway health index ingest jobs keys logs mail metrics network orders
payments portal proxy reports router search secrets session shared stage static storage sync tasks
tenant traffic users vault zone""".split()
TYPES = ["string", "number", "bool", "list(string)", "map(string)", "set(string)"]
TYPES += ["object({ name = string, size = number })", "any"]
RESOURCES = """aws_instance aws_s3_bucket aws_iam_role aws_security_group aws_lambda_function
google_storage_bucket azurerm_resource_group kubernetes_namespace aws_db_instance
aws_route53_record""".split()


class Chance:
    """Numbers that look random and are the same on each run (Knuth's MMIX generator)."""

    def __init__(self):
        self.state = 20260101

    def below(self, n):
        self.state = (self.state * 6364136223846793005 + 1442695040888963407) % 2**64
        return (self.state >> 33) % n

    def one_in(self, n):
        return self.below(n) == 0

    def of(self, choices):
        return choices[self.below(len(choices))]


class Writer:
    """Writes blocks, each as a list of formatted lines."""

    def __init__(self, chance):
        self.chance = chance
        self.count = 0

    def name(self):
        """A new name; one in 60 is not in snake_case."""
        self.count += 1
        parts = [self.chance.of(WORDS), self.chance.of(WORDS)]
        if self.chance.one_in(60):
            return parts[0] + parts[1].capitalize() + str(self.count)
        return f"{parts[0]}_{parts[1]}_{self.count}"

    def reference(self):
        chance = self.chance
        return chance.of([
            f"var.{chance.of(WORDS)}_{chance.of(WORDS)}",
            f"local.{chance.of(WORDS)}_name",
            f"module.{chance.of(WORDS)}.id",
            f"{chance.of(RESOURCES)}.{chance.of(WORDS)}.arn",
            f"data.{chance.of(RESOURCES)}.{chance.of(WORDS)}.id",
            "each.value.name",
            f"{chance.of(RESOURCES)}.{chance.of(WORDS)}[0].id",
        ])

    def value(self):
        """An expression on one line."""
        chance = self.chance
        kind = chance.below(100)
        if kind < 28:
            return f'"{chance.of(WORDS)}-{chance.of(WORDS)}"'
        if kind < 52:
            return self.reference()
        if kind < 66:
            return f'"${{{self.reference()}}}-{chance.of(WORDS)}-${{var.environment}}"'
        if kind < 74:
            return str(chance.below(9000))
        if kind < 80:
            return chance.of(["true", "false", "null"])
        if kind < 85:
            return f'["{chance.of(WORDS)}", {self.reference()}, "{chance.of(WORDS)}"]'
        if kind < 88:
            return f'var.environment == "production" ? {chance.below(9) + 2} : 1'
        if kind < 91:
            return f'merge(local.common_tags, {{ Name = "{chance.of(WORDS)}-${{each.key}}" }})'
        if kind < 93:
            return f"[for s in {self.reference()} : s.id if s.enabled]"
        if kind < 95:
            return f"{{ for k, v in {self.reference()} : k => v.arn }}"
        return self.call()

    def call(self):
        """A call, or a deprecated form as old files have it."""
        chance = self.chance
        kind = chance.below(20)
        if kind < 5:
            return f'"${{{self.reference()}}}"'
        if kind == 5:
            return f"aws_instance.{chance.of(WORDS)}.0.id"
        if kind == 6:
            return f"{self.reference()} == [] ? 0 : 1"
        if kind == 7:
            return f'lookup({self.reference()}, "{chance.of(WORDS)}")'
        if kind < 11:
            return f'lookup({self.reference()}, "{chance.of(WORDS)}", "{chance.of(WORDS)}")'
        if kind < 15:
            return f'format("%s-%s", {self.reference()}, {self.reference()})'
        return f"length({self.reference()}) > 0 ? element({self.reference()}, 0) : null"

    def comment(self, what):
        sign = "//" if self.chance.one_in(30) else "#"
        return f"{sign} {what}"

    def attributes(self, indent, pairs):
        """Attributes in consecutive lines, with their = signs and comments in columns."""
        width = max(len(name) for name, _ in pairs)
        rows = [f"{indent}{name.ljust(width)} = {value}" for name, value in pairs]
        commented = [self.chance.one_in(25) for _ in rows]
        out, run = [], []
        for row, has in zip(rows + [""], commented + [False]):
            if has:
                run.append(row)
                continue
            wide = max((len(one) for one in run), default=0)
            for one in run:
                out.append(one.ljust(wide) + " " + self.comment("see " + self.chance.of(WORDS)))
            out.append(row)
            run = []
        return out[:-1]

    def some(self, indent, names):
        return self.attributes(indent, [(name, self.value()) for name in names])

    def variable(self):
        chance = self.chance
        rows = []
        if not chance.one_in(12):
            what = f"The {chance.of(WORDS)} of the {chance.of(WORDS)}"
            rows.append(("description", f'"{what}, as the {chance.of(WORDS)} has it"'))
        if not chance.one_in(30):
            rows.append(("type", chance.of(TYPES)))
        if chance.one_in(2) or not rows:
            values = ["null", '""', "[]", "{}", "true", "3", '"default"']
            rows.append(("default", chance.of(values)))
        return [f'variable "{self.name()}" {{', *self.attributes("  ", rows), "}"]

    def output(self):
        rows = [("value", self.value())]
        if not self.chance.one_in(10):
            rows.insert(0, ("description", f'"What the {self.chance.of(WORDS)} is named"'))
        return [f'output "{self.name()}" {{', *self.attributes("  ", rows), "}"]

    def locals(self):
        out = ["locals {"]
        count = 2 + self.chance.below(5)
        out += self.attributes("  ", [(self.name(), self.value()) for _ in range(count)])
        tags = self.some("    ", ["Environment", "Owner", "CostCenter", "ManagedBy"])
        out += ["", "  common_tags = {", *tags, "  }"]
        out += ["", f"  {self.name()} = ["]
        out += [f'    "{self.chance.of(WORDS)}",' for _ in range(2 + self.chance.below(4))]
        out += ["  ]", "}"]
        return out

    def module(self):
        out = [f'module "{self.name()}" {{', f'  source = "./modules/{self.chance.of(WORDS)}"', ""]
        out += self.some("  ", ["name", "environment", "vpc_id", "subnet_ids", "instance_count"])
        out += ["", "  providers = {", "    aws = aws.east", "  }", "}"]
        return out

    def policy(self):
        out = [f'data "aws_iam_policy_document" "{self.name()}" {{']
        for _ in range(1 + self.chance.below(3)):
            sid = self.chance.of(WORDS).capitalize()
            out += ["  statement {", f'    sid    = "{sid}"', '    effect = "Allow"', ""]
            out += ["    actions = [", '      "s3:GetObject",', '      "s3:ListBucket",']
            out += ["    ]", ""]
            out += [f'    resources = [{self.reference()}, "${{{self.reference()}}}/*"]', "  }", ""]
        return out[:-1] + ["}"]

    def user_data(self):
        chance = self.chance
        out = ["  user_data = <<-EOT", "    #!/bin/bash", "    set -euo pipefail"]
        for _ in range(3 + chance.below(8)):
            said = f'"{chance.of(WORDS)} ${{{self.reference()}}}"'
            out.append(f"    echo {said} >> /etc/{chance.of(WORDS)}.conf")
        return out + ['    %{ if var.debug ~}', "    set -x", "    %{ endif ~}", "  EOT"]

    def resource(self):
        chance = self.chance
        out = [f'resource "{chance.of(RESOURCES)}" "{self.name()}" {{']
        if chance.one_in(3):
            name = chance.of(["count", "for_each"])
            out += self.attributes("  ", [(name, self.value())]) + [""]
        keys = ["name", "ami", "instance_type", "subnet_id", "vpc_security_group_ids"]
        keys += ["availability_zone", "key_name", "monitoring"]
        out += self.some("  ", keys[chance.below(4):])
        if chance.one_in(2):
            out += ["", "  tags = {", *self.some("    ", ["Name", "Environment", "Team"]), "  }"]
        if chance.one_in(3):
            out += ["", *self.user_data()]
        if chance.one_in(3):
            rows = self.some("    ", ["from_port", "to_port", "protocol", "cidr_blocks"])
            out += ["", "  ingress {", *rows, "  }"]
        if chance.one_in(5):
            out += ["", '  dynamic "setting" {', f"    for_each = {self.reference()}"]
            out += ["    content {", "      name  = setting.key", "      value = setting.value"]
            out += ["    }", "  }"]
        if chance.one_in(5):
            out += ["", "  assume_role_policy = jsonencode({", '    Version = "2012-10-17"']
            out += ["    Statement = [", "      {", '        Effect = "Allow"']
            out += ['        Action = "sts:AssumeRole"', "      },", "    ]", "  })"]
        if chance.one_in(4):
            out += ["", "  lifecycle {", "    create_before_destroy = true"]
            out += ["    ignore_changes        = [tags, user_data]", "  }"]
        return out + ["}"]

    def block(self):
        """A block, sometimes with comments before it, and an empty line."""
        chance = self.chance
        kind = chance.below(20)
        if kind < 4:
            out = self.variable()
        elif kind < 6:
            out = self.output()
        elif kind < 8:
            out = self.locals()
        elif kind < 10:
            out = self.module()
        elif kind < 12:
            out = self.policy()
        else:
            out = self.resource()
        if chance.one_in(20):
            out = self.untidy(out)
        if chance.one_in(4):
            what = f"The {chance.of(WORDS)} for the {chance.of(WORDS)}"
            out.insert(0, self.comment(f"{what}, kept in one place"))
        if chance.one_in(200):
            rules = "terraform_naming_convention, terraform_documented_variables"
            out.insert(0, f"# tflint-ignore: {rules} # kept as it was")
        return out + [""]

    def untidy(self, out):
        """The block badly formatted: smaller indents, and other spaces next to = and commas.
        Heredocs stay as they are."""
        done, inside = [], False
        for line in out:
            if inside:
                done.append(line)
                inside = line.strip() != "EOT"
                continue
            inside = line.endswith("<<-EOT")
            line = line[min(2, len(line) - len(line.lstrip())):]
            sign = self.chance.of(["=", " =", "  = "])
            done.append(line.replace(" = ", sign, 1).replace(", ", ",", 1))
        return done


def text(length):
    """A text of `length` bytes: blocks, and a comment for the bytes that are left. A longer text
    begins with the blocks of a shorter one."""
    writer = Writer(Chance())
    out, size = [], 0
    while True:
        block = ("\n".join(writer.block()) + "\n").encode()
        if size + len(block) > length - 100:
            break
        out.append(block)
        size += len(block)
    out.append(b"#" * (length - size - 1) + b"\n")
    return b"".join(out)
