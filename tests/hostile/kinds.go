package main

func twice(k int) int {
	return k + k
}

func put(c chan int, n int) {
	c <- n
}

func get(c chan int) {
	v := <-c
	println("got", v)
}

func pair(c chan int) {
	select {
	case c <- 1:
		println("sent")
	case v := <-c:
		println(v)
	}
}

func main() {
	a, b := make(chan int), make(chan int, 1)
	println(twice(len(b)+cap(b)), true)
	go put(a, 7)
	go get(a)
	go put(b, 1)
	go put(b, 2)
	go pair(a)
	go pair(a)
	select {
	case v := <-a:
		println(v)
	default:
		println("none")
	}
	println(<-b)
	println(<-b)
	println(<-a)
	close(b)
	v, open := <-b
	println(v, open)
	for i := 0; i < 3; i++ {
		go get(a)
	}
	close(a)
	close(a)
}
