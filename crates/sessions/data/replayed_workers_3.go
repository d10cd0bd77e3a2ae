package main
func twice(k int) int {
return k + k
}
func leaf(a, b chan int, n int) {
b <- <-a
}
func worker0(a, b chan int) {
n, v, open := 1, 0, true
_ = open
println(n, v)
n++
println(n, v)
a <- n
for k := 0; k < 2; k++ {
n++
}
for k := 0; k < 2; k++ {
a <- n
}
_ = v
println(n)
}
func worker1(a, b chan int) {
n, v, open := 8, 0, true
_ = open
a <- n
for k := 0; k < 1; k++ {
n, open = <-a
_ = open
}
close(a)
println(n, v)
_ = v
println(n)
}
func worker2(a, b chan int) {
n, v, open := 2, 0, true
_ = open
println(n, v)
for k := 0; k < 3; k++ {
go leaf(a, b, n)
}
select {
case b <- n:
n++
case v = <-a:
println(v)
default:
n--
}
_ = v
println(n)
}
func main() {
a := make(chan int, 0)
b := make(chan int)
go worker0(a, b)
go worker1(a, b)
go worker2(a, b)
n, v, open := 8, 0, true
_ = open
b <- n
v = <-a
n = n*3 + v
_ = v
println(n)
}
