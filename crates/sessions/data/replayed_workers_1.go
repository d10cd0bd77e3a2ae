package main
func twice(k int) int {
return k + k
}
func leaf(a, b chan int, n int) {
println(<-b)
}
func worker0(a, b chan int) {
n, v, open := 5, 0, true
_ = open
go leaf(a, a, n)
select {
case b <- n:
n++
case v = <-a:
println(v)
}
n, open = <-a
_ = open
v = <-b
_ = v
println(n)
}
func worker1(a, b chan int) {
n, v, open := 0, 0, true
_ = open
n = n*3 + v
go leaf(b, a, n)
_ = v
println(n)
}
func worker2(a, b chan int) {
n, v, open := 6, 0, true
_ = open
n = twice(v)
v = <-b
_ = v
println(n)
}
func main() {
a := make(chan int, 1)
b := make(chan int)
go worker0(a, b)
go worker1(b, a)
go worker2(b, a)
n, v, open := 2, 0, true
_ = open
a <- n
close(a)
_ = v
println(n)
}
