package main

// A case of nil is never ready; a merge ends when both ends are closed.
func fill(c chan int, from int) {
	c <- from
	c <- from + 1
	close(c)
}

func main() {
	a, b := make(chan int), make(chan int)
	go fill(a, 10)
	go fill(b, 20)
	for a != nil || b != nil {
		select {
		case v, ok := <-a:
			if !ok {
				a = nil
				continue
			}
			println(v)
		case v, ok := <-b:
			if !ok {
				b = nil
				continue
			}
			println(v)
		}
	}
}
