a = [] == <<E
x
E
b = c == []
