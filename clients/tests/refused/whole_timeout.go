package main

func main() {
	c := make(chan int)
	select {
	case v := <-c:
		println(v)
	case <-time.After(time.Second):
		println("late")
	}
}
