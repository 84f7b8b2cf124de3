resource   "aws_instance"    "web"{
count=2
      ami   =   "abc"   # image
  tags={Name="web",Env   =   "prod"}
    list=[1,2 ,3]
call = f ( a , b )
cond=a?b:c
neg=- 1
not=! a
idx=a [0] . b
}
