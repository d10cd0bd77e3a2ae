package main

func answer(asked, told, done chan int) {
	seen := 0
	for {
		select {
		case n := <-asked:
			seen = n
		case told <- seen:
			seen--
		case <-done:
			println(seen)
			return
		}
	}
}

func ask(asked, told, done chan int) {
	for i := 0; ; i++ {
		select {
		case asked <- i:
		case v, open := <-told:
			if !open {
				return
			}
			println(v)
		default:
			if i%50 == 49 {
				done <- i
			}
		}
	}
}

func main() {
	asked := make(chan int, 2)
	told := make(chan int)
	done := make(chan int, 1)
	go answer(asked, told, done)
	go answer(asked, told, done)
	go ask(asked, told, done)
	go ask(asked, told, done)
	for {
		<-done
		done <- 1
	}
}
