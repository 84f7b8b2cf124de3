r "a" b{
x=lookup(c, "d") // e
n { y=[1,] }
}
