package main
func twice(k int) int {
return k + k
}
func leaf(a, b chan int, n int) {
a <- n
}
func worker0(a, b chan int) {
n, v, open := 1, 0, true
_ = open
v = <-a
v = <-a
n, open = <-a
_ = open
close(b)
select {
case a <- n:
n++
case v = <-b:
println(v)
default:
n--
}
_ = v
println(n)
}
func worker1(a, b chan int) {
n, v, open := 5, 0, true
_ = open
v = <-b
b <- n
v = <-a
a <- n
n++
_ = v
println(n)
}
func main() {
a := make(chan int, 0)
b := make(chan int)
go worker0(b, a)
go worker1(b, a)
n, v, open := 3, 0, true
_ = open
a <- n
n, open = <-b
_ = open
n++
b <- n
_ = v
println(n)
}
